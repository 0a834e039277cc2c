% status: CounterSatisfiable
% In K4 a world that is seen need not see itself.
tff(system,logic,$modal == [$modalities == $modal_system_K4]).
tff(goal,conjecture,[.] ( [.] p => p )).
