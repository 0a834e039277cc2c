% status: CounterSatisfiable
% The Barcan formula fails in varying domains, where what exists at one world tells nothing of another.
tff(system,logic,$modal == [$domains == $varying, $modalities == $modal_system_K]).
tff(goal,conjecture,! [X] : [.] q(X) => [.] ! [X] : q(X)).
