% status: CounterSatisfiable
% With the scheme C4 what is necessary need not be necessarily necessary.
tff(system,logic,$modal == [$modalities == $modal_axiom_C4]).
tff(goal,conjecture,[.] p => [.] [.] p).
