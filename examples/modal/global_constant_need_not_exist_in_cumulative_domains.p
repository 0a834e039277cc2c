% status: CounterSatisfiable
% A global constant may name something that exists only later.
tff(system,logic,$modal == [$domains == $cumulative, $terms == $global, $modalities == $modal_system_K]).
tff(goal,conjecture,? [X] : X = c).
