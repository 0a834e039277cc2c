% status: Theorem
% With the scheme CD a world sees at most one world, so what is possible is necessary.
tff(system,logic,$modal == [$modalities == $modal_axiom_CD]).
tff(goal,conjecture,<.> p => [.] p).
