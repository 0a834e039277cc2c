% status: CounterSatisfiable
% The Barcan formula fails in cumulative domains, where what exists goes on to exist at the worlds that are seen.
tff(system,logic,$modal == [$domains == $cumulative, $modalities == $modal_system_K]).
tff(goal,conjecture,! [X] : [.] q(X) => [.] ! [X] : q(X)).
