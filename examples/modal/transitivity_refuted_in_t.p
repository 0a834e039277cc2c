% status: CounterSatisfiable
% In T what is necessary need not be necessarily necessary.
tff(system,logic,$modal == [$modalities == $modal_system_T]).
tff(goal,conjecture,[.] p => [.] [.] p).
