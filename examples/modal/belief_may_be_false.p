% status: CounterSatisfiable
% What is believed need not be true: the index of belief has the system D45.
tff(system,logic,$modal == [$modalities == [[#knows] == $modal_system_S5, [#believes] == $modal_system_D45]]).
tff(goal,conjecture,[#believes] p => p).
