% status: CounterSatisfiable
% In D45, the logic of belief, what is believed need not be true.
tff(system,logic,$modal == [$modalities == $modal_system_D45]).
tff(goal,conjecture,[.] p => p).
