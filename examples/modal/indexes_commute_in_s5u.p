% status: Theorem
% In S5U each index sees all worlds.
tff(system,logic,$modal == [$modalities == $modal_system_S5U]).
tff(goal,conjecture,[#a] [#b] p => [#b] [#a] p).
