tff(worlds,interpretation,! [W: $world] : ( W = "w0" | W = "w1" )).
tff(local,interpretation,$local_world = "w0").
tff(domain,interpretation,! [X: person] : ( X = "person0" )).
tff(access,interpretation,$accessible_world("w0","w0") & $accessible_world("w0","w1") & $accessible_world("w1","w1")).
tff(ann,interpretation,ann = "person0").
tff(happy,interpretation,$in_world("w1",happy("person0"))).
