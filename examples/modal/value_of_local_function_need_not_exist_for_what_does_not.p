% status: CounterSatisfiable
% A local function may take what does not exist to something that does not.
tff(system,logic,$modal == [
    $domains == $varying,
    $terms == [$local, c == $global],
    $modalities == $modal_system_K]).
tff(goal,conjecture,? [X] : X = f(c)).
