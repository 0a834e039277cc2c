% refused: 13 sort unknown-sort 2 t
tff(l,logic,$modal == [$modalities == $modal_system_K]).
tff(p,type,p: t > $o).
