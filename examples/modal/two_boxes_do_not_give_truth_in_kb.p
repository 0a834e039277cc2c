% status: CounterSatisfiable
% In KB a world may see no world, so what is necessarily necessary need not be true.
tff(system,logic,$modal == [$modalities == $modal_system_KB]).
tff(goal,conjecture,[.] [.] p => p).
