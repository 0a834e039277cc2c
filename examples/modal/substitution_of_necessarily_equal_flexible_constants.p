% status: Theorem
% Necessarily equal flexible constants may be put for each other under a box.
tff(system,logic,$modal == [$designation == $flexible, $modalities == $modal_system_K]).
tff(goal,conjecture,[.] a = b => ( [.] p(a) => [.] p(b) )).
