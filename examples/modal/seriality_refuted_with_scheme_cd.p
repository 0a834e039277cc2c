% status: CounterSatisfiable
% With the scheme CD a world may see no world.
tff(system,logic,$modal == [$modalities == $modal_axiom_CD]).
tff(goal,conjecture,[.] p => <.> p).
