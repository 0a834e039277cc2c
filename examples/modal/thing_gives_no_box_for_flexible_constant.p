% status: CounterSatisfiable
% What the thing that a flexible constant names here necessarily is, need not hold of what it names elsewhere.
tff(system,logic,$modal == [$designation == $flexible, $modalities == $modal_system_K]).
tff(goal,conjecture,? [X] : ( X = c & [.] p(X) ) => [.] p(c)).
