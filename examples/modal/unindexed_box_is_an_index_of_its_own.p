% status: CounterSatisfiable
% The box without an index has a relation of its own.
tff(system,logic,$modal == [$modalities == [$modal_system_S5, [#a] == $modal_system_S5]]).
tff(goal,conjecture,[.] p => [#a] p).
