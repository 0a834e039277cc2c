% status: CounterSatisfiable
% A hypothesis holds at the actual world, so it need not be necessary.
tff(system,logic,$modal == [$modalities == $modal_system_K]).
tff(premise,hypothesis,p).
tff(goal,conjecture,[.] p).
