% status: CounterSatisfiable
% There need not be one thing that a flexible constant names here and at each seen world.
tff(system,logic,$modal == [$designation == $flexible, $modalities == $modal_system_S5]).
tff(goal,conjecture,? [X] : ( X = c & [.] X = c )).
