% status: CounterSatisfiable
% In D4 what is necessary need not be true.
tff(system,logic,$modal == [$modalities == $modal_system_D4]).
tff(goal,conjecture,[.] p => p).
