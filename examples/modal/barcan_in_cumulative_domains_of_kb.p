% status: Theorem
% Where the relation is symmetric, cumulative domains are the same at worlds that see each other, and the Barcan formula holds.
tff(system,logic,$modal == [$domains == $cumulative, $modalities == $modal_system_KB]).
tff(goal,conjecture,! [X] : [.] q(X) => [.] ! [X] : q(X)).
