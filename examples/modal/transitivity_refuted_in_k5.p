% status: CounterSatisfiable
% In K5 what is necessary need not be necessarily necessary.
tff(system,logic,$modal == [$modalities == $modal_system_K5]).
tff(goal,conjecture,[.] p => [.] [.] p).
