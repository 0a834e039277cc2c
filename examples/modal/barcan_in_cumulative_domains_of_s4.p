% status: CounterSatisfiable
% The Barcan formula fails in cumulative domains of S4.
tff(system,logic,$modal == [$domains == $cumulative, $modalities == $modal_system_S4]).
tff(goal,conjecture,! [X] : [.] q(X) => [.] ! [X] : q(X)).
