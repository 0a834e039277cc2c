% status: Theorem
% Decreasing domains shrink along the relation of each index.
tff(system,logic,$modal == [$domains == $decreasing, $modalities == $modal_system_K]).
tff(goal,conjecture,! [X] : [.] [#b] q(X) => [.] [#b] ! [X] : q(X)).
