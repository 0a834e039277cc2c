tff(worlds,interpretation,! [W: $world] : ( W = "w0" | W = "w1" )).
tff(local,interpretation,$local_world = "w0").
tff(domain,interpretation,! [X: person] : ( X = "person0" | X = "person1" )).
tff(access,interpretation,$accessible_world("w0","w0") & $accessible_world("w0","w1") & $accessible_world("w1","w0") & $accessible_world("w1","w1")).
tff(president,interpretation,$in_world("w0",president = "person1") & $in_world("w1",president = "person0")).
tff(elected,interpretation,$in_world("w0",elected("person1")) & $in_world("w1",elected("person0"))).
