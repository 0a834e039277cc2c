% status: Theorem
% Where the relation is symmetric, decreasing domains are the same at worlds that see each other, and the converse Barcan formula holds.
tff(system,logic,$modal == [$domains == $decreasing, $modalities == $modal_system_S5]).
tff(goal,conjecture,[.] ! [X] : q(X) => ! [X] : [.] q(X)).
