% status: CounterSatisfiable
% In K45 a world may see no world, so that all is necessary and nothing possible.
tff(system,logic,$modal == [$modalities == $modal_system_K45]).
tff(goal,conjecture,[.] p => <.> p).
