% status: CounterSatisfiable
% Two flexible constants may name one thing here and two things elsewhere.
tff(system,logic,$modal == [$designation == $flexible, $modalities == $modal_system_S5]).
tff(goal,conjecture,hesperus = phosphorus => [.] hesperus = phosphorus).
