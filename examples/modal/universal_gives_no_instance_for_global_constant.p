% status: CounterSatisfiable
% What holds of all that exists need not hold of what a global constant names.
tff(system,logic,$modal == [$domains == $varying, $terms == $global, $modalities == $modal_system_K]).
tff(goal,conjecture,! [X] : q(X) => q(c)).
