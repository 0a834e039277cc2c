% refused: 8 lex refused/lex.p 109
tff(l,logic,$modal == [$modalities == $modal_system_K]).
tff(c,conjecture,"p).
