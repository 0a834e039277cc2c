% status: CounterSatisfiable
% Where only one constant is global, it may name something that does not exist.
tff(system,logic,$modal == [
    $domains == $varying,
    $terms == [$local, nowhere == $global],
    $modalities == $modal_system_K]).
tff(goal,conjecture,? [X] : X = here & ? [X] : X = nowhere).
