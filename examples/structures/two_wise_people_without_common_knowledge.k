tff(worlds,interpretation,! [W: $world] : ( W = "w0" | W = "w1" )).
tff(local,interpretation,$local_world = "w0").
tff(access,interpretation,$accessible_world(#ann,"w0","w0") & $accessible_world(#ann,"w0","w1") & $accessible_world(#ann,"w1","w0") & $accessible_world(#ann,"w1","w1")).
tff(access,interpretation,$accessible_world(#bob,"w0","w0") & $accessible_world(#bob,"w1","w1")).
tff(spot_of_ann,interpretation,$in_world("w0",spot_of_ann)).
tff(spot_of_bob,interpretation,$true).
