% status: CounterSatisfiable
% An axiom with the suffix local holds at the actual world only.
tff(system,logic,$modal == [$modalities == $modal_system_S5]).
tff(premise,axiom-local,p).
tff(goal,conjecture,[.] p).
