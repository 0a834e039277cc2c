% status: Theorem
% A global constant that names what a local one names names something that exists.
tff(system,logic,$modal == [
    $domains == $varying,
    $terms == [$local, nowhere == $global],
    $modalities == $modal_system_K]).
tff(goal,conjecture,nowhere = here => ? [X] : X = nowhere).
