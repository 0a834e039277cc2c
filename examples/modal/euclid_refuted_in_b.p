% status: CounterSatisfiable
% In B what is possible need not be necessarily possible.
tff(system,logic,$modal == [$modalities == $modal_system_B]).
tff(goal,conjecture,<.> p => [.] <.> p).
