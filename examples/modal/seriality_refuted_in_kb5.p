% status: CounterSatisfiable
% In KB5 a world may see no world, so that all is necessary and nothing possible.
tff(system,logic,$modal == [$modalities == $modal_system_KB5]).
tff(goal,conjecture,[.] p => <.> p).
