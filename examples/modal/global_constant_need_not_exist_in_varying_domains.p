% status: CounterSatisfiable
% A global constant may name something that does not exist at this world.
tff(system,logic,$modal == [$domains == $varying, $terms == $global, $modalities == $modal_system_K]).
tff(goal,conjecture,? [X] : X = c).
