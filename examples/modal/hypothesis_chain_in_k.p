% status: CounterSatisfiable
% A hypothesis that speaks of the next world speaks of it at the actual world only.
tff(system,logic,$modal == [$modalities == $modal_system_K]).
tff(step,hypothesis,p => [.] p).
tff(start,hypothesis,p).
tff(goal,conjecture,[.] [.] p).
