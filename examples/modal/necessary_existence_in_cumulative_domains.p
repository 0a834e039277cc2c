% status: Theorem
% In cumulative domains what exists exists at each seen world.
tff(system,logic,$modal == [$domains == $cumulative, $modalities == $modal_system_K]).
tff(goal,conjecture,! [X] : [.] ? [Y] : X = Y).
