% refused: 12 spec unknown-key $worlds
tff(l,logic,$modal == [$worlds == $constant, $modalities == $modal_system_K]).
