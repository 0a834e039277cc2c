% status: CounterSatisfiable
% In S5 two indexes may see different worlds.
tff(system,logic,$modal == [$modalities == $modal_system_S5]).
tff(goal,conjecture,[#a] p => [#b] p).
