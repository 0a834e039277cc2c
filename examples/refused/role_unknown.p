% refused: 11 role unknown 2
tff(l,logic,$modal == [$modalities == $modal_system_K]).
tff(c,question,p).
