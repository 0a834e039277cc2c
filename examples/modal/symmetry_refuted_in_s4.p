% status: CounterSatisfiable
% In S4 what is true need not be necessarily possible.
tff(system,logic,$modal == [$modalities == $modal_system_S4]).
tff(goal,conjecture,p => [.] <.> p).
