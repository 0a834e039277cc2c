% status: CounterSatisfiable
% With the scheme BoxM a world that is not seen need not see itself.
tff(system,logic,$modal == [$modalities == $modal_axiom_BoxM]).
tff(goal,conjecture,[.] p => p).
