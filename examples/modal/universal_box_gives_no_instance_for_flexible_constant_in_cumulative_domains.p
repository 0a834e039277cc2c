% status: CounterSatisfiable
% A flexible constant may name at a seen world something that does not exist here.
tff(system,logic,$modal == [
    $domains == $cumulative,
    $designation == $flexible,
    $modalities == $modal_system_K]).
tff(goal,conjecture,! [X] : [.] q(X) => [.] q(c)).
