% refused: 9 syntax refused/syntax.p 2
tff(l,logic,$modal == [$modalities == $modal_system_K]).
tff(c,conjecture,p & q | r).
