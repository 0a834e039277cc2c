% status: CounterSatisfiable
% In D5 what is necessary need not be necessarily necessary.
tff(system,logic,$modal == [$modalities == $modal_system_D5]).
tff(goal,conjecture,[.] p => [.] [.] p).
