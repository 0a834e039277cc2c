% status: CounterSatisfiable
% In varying domains a thing may necessarily have a property without existing at the seen worlds.
tff(system,logic,$modal == [$domains == $varying, $modalities == $modal_system_K]).
tff(goal,conjecture,? [X] : [.] q(X) => [.] ? [X] : q(X)).
