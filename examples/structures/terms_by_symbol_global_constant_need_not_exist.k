tff(worlds,interpretation,! [W: $world] : ( W = "w0" | W = "w1" )).
tff(local,interpretation,$local_world = "w0").
tff(domain,interpretation,! [X: $i] : ( X = "$i0" | X = "$i1" )).
tff(exists,interpretation,$exists_in_world("w0","$i1") & $exists_in_world("w1","$i0") & $exists_in_world("w1","$i1")).
tff(here,interpretation,here = "$i1").
tff(nowhere,interpretation,nowhere = "$i0").
