% refused: 12 spec not-modal
tff(l,logic,$temporal == [$modalities == $modal_system_K]).
