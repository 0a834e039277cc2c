% status: CounterSatisfiable
% In S4 what is possibly necessary need not be true.
tff(system,logic,$modal == [$modalities == $modal_system_S4]).
tff(goal,conjecture,<.> [.] p => p).
