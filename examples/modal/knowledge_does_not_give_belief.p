% status: CounterSatisfiable
% Nothing ties the two indexes, so what is known need not be believed.
tff(system,logic,$modal == [$modalities == [[#knows] == $modal_system_S5, [#believes] == $modal_system_D45]]).
tff(goal,conjecture,[#knows] p => [#believes] p).
