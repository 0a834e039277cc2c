% refused: 11 role two-conjectures 3
tff(l,logic,$modal == [$modalities == $modal_system_K]).
tff(c,conjecture,p).
tff(d,conjecture-global,q).
