% status: CounterSatisfiable
% The converse Barcan formula fails in decreasing domains, where what exists at a seen world existed before.
tff(system,logic,$modal == [$domains == $decreasing, $modalities == $modal_system_K]).
tff(goal,conjecture,[.] ! [X] : q(X) => ! [X] : [.] q(X)).
