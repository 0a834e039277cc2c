% refused: 13 sort unknown-override 1 s
tff(l,logic,$modal == [$domains == [s == $varying], $modalities == $modal_system_K]).
