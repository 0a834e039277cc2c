% status: CounterSatisfiable
% In D what is necessary need not be possibly necessary.
tff(system,logic,$modal == [$modalities == $modal_system_D]).
tff(goal,conjecture,[.] p => <.> [.] p).
