tff(worlds,interpretation,! [W: $world] : ( W = "w0" | W = "w1" )).
tff(local,interpretation,$local_world = "w1").
tff(access,interpretation,$accessible_world("w0","w1") & $accessible_world("w1","w0")).
tff(p,interpretation,$in_world("w0",p)).
