% status: Theorem
% In a term under a box the inner constant is taken at the same world as the outer function.
tff(system,logic,$modal == [$designation == $flexible, $modalities == $modal_system_K]).
tff(goal,conjecture,[.] c = d => [.] f(c) = f(d)).
