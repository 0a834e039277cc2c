% status: Theorem
% The converse Barcan formula holds in constant domains, where what exists is the same at each world.
tff(system,logic,$modal == [$domains == $constant, $modalities == $modal_system_K]).
tff(goal,conjecture,[.] ! [X] : q(X) => ! [X] : [.] q(X)).
