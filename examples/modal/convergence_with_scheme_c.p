% status: Theorem
% With the scheme C two seen worlds see a common world.
tff(system,logic,$modal == [$modalities == $modal_axiom_C]).
tff(goal,conjecture,<.> [.] p => [.] <.> p).
