% status: CounterSatisfiable
% In B what is necessary need not be necessarily necessary.
tff(system,logic,$modal == [$modalities == $modal_system_B]).
tff(goal,conjecture,[.] p => [.] [.] p).
