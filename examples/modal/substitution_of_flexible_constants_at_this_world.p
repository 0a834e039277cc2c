% status: Theorem
% Equal flexible constants may be put for each other outside of boxes.
tff(system,logic,$modal == [$designation == $flexible, $modalities == $modal_system_K]).
tff(goal,conjecture,a = b => ( p(a) => p(b) )).
