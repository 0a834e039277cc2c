% status: Theorem
% With the schemes D and CD a world sees exactly one world, so box and diamond agree.
tff(system,logic,$modal == [$modalities == [$modal_axiom_D, $modal_axiom_CD]]).
tff(goal,conjecture,<.> p <=> [.] p).
