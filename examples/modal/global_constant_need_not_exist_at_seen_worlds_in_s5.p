% status: CounterSatisfiable
% In S5 the worlds where a thing exists need not be seen.
tff(system,logic,$modal == [$domains == $varying, $terms == $global, $modalities == $modal_system_S5]).
tff(goal,conjecture,<.> ? [X] : X = c).
