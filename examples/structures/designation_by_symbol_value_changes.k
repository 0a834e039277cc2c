tff(worlds,interpretation,! [W: $world] : ( W = "w0" | W = "w1" )).
tff(local,interpretation,$local_world = "w1").
tff(domain,interpretation,! [X: $i] : ( X = "$i0" | X = "$i1" )).
tff(access,interpretation,$accessible_world("w0","w0") & $accessible_world("w0","w1") & $accessible_world("w1","w0") & $accessible_world("w1","w1")).
tff(age,interpretation,$in_world("w0",age("$i0") = "$i0") & $in_world("w0",age("$i1") = "$i0") & $in_world("w1",age("$i0") = "$i1") & $in_world("w1",age("$i1") = "$i1")).
tff(ann,interpretation,ann = "$i0").
tff(old,interpretation,old = "$i1").
