tff(worlds,interpretation,! [W: $world] : ( W = "w0" | W = "w1" )).
tff(local,interpretation,$local_world = "w1").
tff(domain,interpretation,! [X: person] : ( X = "person0" | X = "person1" )).
tff(domain,interpretation,! [X: number] : ( X = "number0" )).
tff(access,interpretation,$accessible_world("w1","w0")).
tff(exists,interpretation,$exists_in_world("w0","person0") & $exists_in_world("w1","person1")).
tff(lives,interpretation,$in_world("w0",lives("person1"))).
tff(even,interpretation,$true).
