% status: Theorem
% With the scheme BoxM each world that is seen sees itself.
tff(system,logic,$modal == [$modalities == $modal_axiom_BoxM]).
tff(goal,conjecture,[.] ( [.] p => p )).
