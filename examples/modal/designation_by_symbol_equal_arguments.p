% status: Theorem
% A flexible function takes equal rigid constants to equal values at each world.
tff(system,logic,$modal == [$designation == [$rigid, age == $flexible], $modalities == $modal_system_K]).
tff(goal,conjecture,ann = bob => [.] age(ann) = age(bob)).
