% status: CounterSatisfiable
% A conjecture with the suffix global does not follow from what holds at the actual world.
tff(system,logic,$modal == [$modalities == $modal_system_S5]).
tff(premise,hypothesis,p).
tff(goal,conjecture-global,p).
