% refused: 12 spec unknown-value $modalities
tff(l,logic,$modal == [$modalities == [$modal_system_S4, $modal_axiom_B]]).
