% status: CounterSatisfiable
% In S5 there may be worlds that the actual world does not see.
tff(system,logic,$modal == [$modalities == $modal_system_S5]).
tff(premise,hypothesis,[.] p).
tff(goal,conjecture-global,p).
