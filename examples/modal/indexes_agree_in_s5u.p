% status: Theorem
% In S5U two indexes see the same worlds, namely all.
tff(system,logic,$modal == [$modalities == $modal_system_S5U]).
tff(goal,conjecture,[#a] p => [#b] p).
