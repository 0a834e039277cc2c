tff(worlds,interpretation,! [W: $world] : ( W = "w0" )).
tff(local,interpretation,$local_world = "w0").
tff(domain,interpretation,! [X: person] : ( X = "person0" )).
tff(exists,interpretation,$exists_in_world("w0","person0")).
tff(ann,interpretation,ann = "person0").
