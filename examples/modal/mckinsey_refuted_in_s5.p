% status: CounterSatisfiable
% In S5 what is necessarily possible need not be possibly necessary.
tff(system,logic,$modal == [$modalities == $modal_system_S5]).
tff(goal,conjecture,[.] <.> p => <.> [.] p).
