% refused: 12 spec duplicate-key [#a]
tff(l,logic,$modal == [$modalities == [[#a] == $modal_system_T, {$box(#a)} == $modal_system_K]]).
