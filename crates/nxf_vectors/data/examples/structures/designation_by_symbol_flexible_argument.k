tff(worlds,interpretation,! [W: $world] : ( W = "w0" | W = "w1" )).
tff(local,interpretation,$local_world = "w0").
tff(domain,interpretation,! [X: $i] : ( X = "$i0" | X = "$i1" )).
tff(access,interpretation,$accessible_world("w0","w0") & $accessible_world("w0","w1") & $accessible_world("w1","w0") & $accessible_world("w1","w1")).
tff(age,interpretation,age("$i0") = "$i1" & age("$i1") = "$i0").
tff(president,interpretation,$in_world("w0",president = "$i1") & $in_world("w1",president = "$i0")).
tff(old,interpretation,old = "$i0").
