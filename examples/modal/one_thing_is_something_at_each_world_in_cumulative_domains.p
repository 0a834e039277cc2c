% status: Theorem
% In cumulative domains one thing that necessarily has a property exists at each seen world.
tff(system,logic,$modal == [$domains == $cumulative, $modalities == $modal_system_K]).
tff(goal,conjecture,? [X] : [.] q(X) => [.] ? [X] : q(X)).
