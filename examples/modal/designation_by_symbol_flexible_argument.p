% status: CounterSatisfiable
% A rigid function may change its value where its argument is a flexible constant.
tff(system,logic,$modal == [
    $designation == [$rigid, president == $flexible],
    $modalities == $modal_system_S5]).
tff(goal,conjecture,age(president) = old => [.] age(president) = old).
