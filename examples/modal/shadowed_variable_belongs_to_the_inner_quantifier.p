% status: Theorem
% An inner quantifier hides the outer one of the same variable, across a box too.
tff(system,logic,$modal == [$modalities == $modal_system_T]).
tff(goal,conjecture,? [X] : ( q(X) & [.] ! [X] : r(X) ) => ! [Y] : r(Y)).
