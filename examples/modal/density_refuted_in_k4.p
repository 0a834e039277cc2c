% status: CounterSatisfiable
% In K4 there need not be a world between two worlds.
tff(system,logic,$modal == [$modalities == $modal_system_K4]).
tff(goal,conjecture,[.] [.] p => [.] p).
