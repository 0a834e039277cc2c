% refused: 13 sort mismatch 4 q
tff(l,logic,$modal == [$modalities == $modal_system_K]).
tff(s,type,s: $tType).
tff(q,type,q: s > $o).
tff(c,conjecture,q(a)).
