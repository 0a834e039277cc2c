tff(l,logic,$modal == [$modalities == $modal_system_K]).
tff(c,conjecture,[.] ( p => q ) => ( [.] p => [.] q )).
