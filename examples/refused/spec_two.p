% refused: 12 spec two 2
tff(l,logic,$modal == [$modalities == $modal_system_K]).
tff(l,logic,$modal == [$modalities == $modal_system_K]).
