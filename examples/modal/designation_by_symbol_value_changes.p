% status: CounterSatisfiable
% The value of a flexible function at a rigid constant may change from world to world.
tff(system,logic,$modal == [$designation == [$rigid, age == $flexible], $modalities == $modal_system_S5]).
tff(goal,conjecture,age(ann) = old => [.] age(ann) = old).
