% status: CounterSatisfiable
% In S5 what is true need not be necessary.
tff(system,logic,$modal == [$modalities == $modal_system_S5]).
tff(goal,conjecture,p => [.] p).
