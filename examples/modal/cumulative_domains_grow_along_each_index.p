% status: Theorem
% Cumulative domains grow along the relation of each index.
tff(system,logic,$modal == [$domains == $cumulative, $modalities == $modal_system_K]).
tff(goal,conjecture,! [X] : [#a] [#b] ? [Y] : X = Y).
