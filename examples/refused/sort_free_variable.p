% refused: 13 sort free-variable 2 X
tff(l,logic,$modal == [$modalities == $modal_system_K]).
tff(c,conjecture,[.] q(X)).
