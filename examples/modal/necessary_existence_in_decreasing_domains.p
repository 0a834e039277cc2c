% status: CounterSatisfiable
% In decreasing domains what exists need not exist at each seen world.
tff(system,logic,$modal == [$domains == $decreasing, $modalities == $modal_system_K]).
tff(goal,conjecture,! [X] : [.] ? [Y] : X = Y).
