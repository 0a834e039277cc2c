% status: Theorem
% Equal rigid constants may be put for each other under a box.
tff(system,logic,$modal == [$modalities == $modal_system_K]).
tff(goal,conjecture,a = b => ( [.] p(a) => [.] p(b) )).
