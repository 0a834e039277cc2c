tff(worlds,interpretation,! [W: $world] : ( W = "w0" | W = "w1" )).
tff(local,interpretation,$local_world = "w0").
tff(domain,interpretation,! [X: $i] : ( X = "$i0" | X = "$i1" )).
tff(access,interpretation,$accessible_world("w0","w0") & $accessible_world("w0","w1") & $accessible_world("w1","w0") & $accessible_world("w1","w1")).
tff(a,interpretation,$in_world("w0",a = "$i0") & $in_world("w1",a = "$i1")).
tff(b,interpretation,$in_world("w0",b = "$i1") & $in_world("w1",b = "$i1")).
