% status: CounterSatisfiable
% In varying domains the Barcan formula fails even in S5.
tff(system,logic,$modal == [$domains == $varying, $modalities == $modal_system_S5]).
tff(goal,conjecture,! [X] : [.] q(X) => [.] ! [X] : q(X)).
