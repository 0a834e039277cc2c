tff(worlds,interpretation,! [W: $world] : ( W = "w0" )).
tff(local,interpretation,$local_world = "w0").
tff(access,interpretation,$true).
tff(p,interpretation,$true).
