% status: Theorem
% A rigid constant names one thing at all worlds, so what it necessarily is, that thing necessarily is.
tff(system,logic,$modal == [$modalities == $modal_system_K]).
tff(goal,conjecture,[.] p(c) => ? [X] : ( X = c & [.] p(X) )).
