% status: Theorem
% An index that the specification does not name has the system that stands without an index.
tff(system,logic,$modal == [$modalities == [$modal_system_S4, [#a] == $modal_system_K]]).
tff(goal,conjecture,[#b] p => [#b] [#b] p).
