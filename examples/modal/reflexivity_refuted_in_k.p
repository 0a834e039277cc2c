% status: CounterSatisfiable
% In K what is necessary need not be true.
tff(system,logic,$modal == [$modalities == $modal_system_K]).
tff(goal,conjecture,[.] p => p).
