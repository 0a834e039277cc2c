% status: CounterSatisfiable
% A global function may take what exists to something that does not.
tff(system,logic,$modal == [$domains == $varying, $terms == $global, $modalities == $modal_system_K]).
tff(goal,conjecture,! [X] : ? [Y] : Y = f(X)).
