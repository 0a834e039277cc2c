% status: CounterSatisfiable
% A flexible constant may name another thing at each world, so no one thing need have the property.
tff(system,logic,$modal == [$designation == $flexible, $modalities == $modal_system_K]).
tff(goal,conjecture,[.] p(c) => ? [X] : ( X = c & [.] p(X) )).
