% status: CounterSatisfiable
% In DB what is necessary need not be true.
tff(system,logic,$modal == [$modalities == $modal_system_DB]).
tff(goal,conjecture,[.] p => p).
