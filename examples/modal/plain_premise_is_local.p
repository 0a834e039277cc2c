% status: CounterSatisfiable
% A plain premise holds at the actual world only.
tff(system,logic,$modal == [$modalities == $modal_system_K]).
tff(premise,plain,p).
tff(goal,conjecture,[.] p).
