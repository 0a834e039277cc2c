% status: CounterSatisfiable
% What holds of flexible constants here tells nothing of their values under a box, at each depth of a term.
tff(system,logic,$modal == [
    $designation == [$rigid, c == $flexible, d == $flexible],
    $modalities == $modal_system_S5]).
tff(goal,conjecture,c = d => [.] f(c) = f(d)).
