tff(worlds,interpretation,! [W: $world] : ( W = "w0" | W = "w1" )).
tff(local,interpretation,$local_world = "w0").
tff(domain,interpretation,! [X: person] : ( X = "person0" )).
tff(domain,interpretation,! [X: ticket] : ( X = "ticket0" | X = "ticket1" )).
tff(access,interpretation,$accessible_world("w0","w1")).
tff(exists,interpretation,$exists_in_world("w0","person0") & $exists_in_world("w1","person0")).
tff(exists,interpretation,$exists_in_world("w0","ticket0") & $exists_in_world("w0","ticket1") & $exists_in_world("w1","ticket0")).
tff(holds,interpretation,$in_world("w1",holds("person0","ticket1"))).
