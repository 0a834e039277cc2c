% status: CounterSatisfiable
% What one index makes necessary for the other need not be so the other way round.
tff(system,logic,$modal == [$modalities == $modal_system_S5]).
tff(goal,conjecture,[#a] [#b] p => [#b] [#a] p).
