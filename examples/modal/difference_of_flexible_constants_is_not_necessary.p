% status: CounterSatisfiable
% Two flexible constants may name two things here and one thing elsewhere.
tff(system,logic,$modal == [$designation == $flexible, $modalities == $modal_system_S5]).
tff(goal,conjecture,hesperus != phosphorus => [.] hesperus != phosphorus).
