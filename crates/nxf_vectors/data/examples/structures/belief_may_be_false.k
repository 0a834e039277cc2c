tff(worlds,interpretation,! [W: $world] : ( W = "w0" | W = "w1" )).
tff(local,interpretation,$local_world = "w1").
tff(access,interpretation,$accessible_world(#knows,"w0","w0") & $accessible_world(#knows,"w1","w1")).
tff(access,interpretation,$accessible_world(#believes,"w0","w0") & $accessible_world(#believes,"w1","w0")).
tff(p,interpretation,$in_world("w0",p)).
