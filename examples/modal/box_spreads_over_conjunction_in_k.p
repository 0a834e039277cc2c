% status: Theorem
% Two things are necessary together exactly where each one is necessary.
tff(system,logic,$modal == [$modalities == $modal_system_K]).
tff(goal,conjecture,[.] ( p & q ) <=> ( [.] p & [.] q )).
