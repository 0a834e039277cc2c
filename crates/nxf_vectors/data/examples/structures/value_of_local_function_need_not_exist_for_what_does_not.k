tff(worlds,interpretation,! [W: $world] : ( W = "w0" | W = "w1" )).
tff(local,interpretation,$local_world = "w1").
tff(domain,interpretation,! [X: $i] : ( X = "$i0" | X = "$i1" )).
tff(exists,interpretation,$exists_in_world("w0","$i0") & $exists_in_world("w1","$i1")).
tff(f,interpretation,f("$i0") = "$i0" & f("$i1") = "$i1").
tff(c,interpretation,c = "$i0").
