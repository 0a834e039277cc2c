% status: Theorem
% With the scheme C4 there is a world between two worlds, so what is necessarily necessary is necessary.
tff(system,logic,$modal == [$modalities == $modal_axiom_C4]).
tff(goal,conjecture,[.] [.] p => [.] p).
