% refused: 13 sort double-name 3 p
tff(l,logic,$modal == [$modalities == $modal_system_K]).
tff(p,type,p: $o).
tff(q,type,p: $i > $o).
