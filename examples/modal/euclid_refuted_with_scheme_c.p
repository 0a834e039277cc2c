% status: CounterSatisfiable
% With the scheme C what is possible need not be necessarily possible.
tff(system,logic,$modal == [$modalities == $modal_axiom_C]).
tff(goal,conjecture,<.> p => [.] <.> p).
