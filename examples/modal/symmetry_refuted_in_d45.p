% status: CounterSatisfiable
% In D45 what is true need not be necessarily possible.
tff(system,logic,$modal == [$modalities == $modal_system_D45]).
tff(goal,conjecture,p => [.] <.> p).
