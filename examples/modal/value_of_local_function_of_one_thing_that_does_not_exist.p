% status: CounterSatisfiable
% A local function may take one thing that exists and one that does not to one that does not.
tff(system,logic,$modal == [
    $domains == $varying,
    $terms == [$local, ghost == $global],
    $modalities == $modal_system_K]).
tff(goal,conjecture,? [X] : X = f(here,ghost)).
