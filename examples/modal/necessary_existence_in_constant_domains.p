% status: Theorem
% In constant domains what exists exists at each seen world.
tff(system,logic,$modal == [$domains == $constant, $modalities == $modal_system_K]).
tff(goal,conjecture,! [X] : [.] ? [Y] : X = Y).
