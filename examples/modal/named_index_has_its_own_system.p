% status: CounterSatisfiable
% An index that the specification names has its own system and not the one that stands without an index.
tff(system,logic,$modal == [$modalities == [$modal_system_S4, [#a] == $modal_system_K]]).
tff(goal,conjecture,[#a] p => [#a] [#a] p).
