% refused: 12 spec no-modalities
tff(l,logic,$modal == [$domains == $varying]).
