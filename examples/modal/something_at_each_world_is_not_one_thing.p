% status: CounterSatisfiable
% Something may have a property at each world, while no one thing has it at all of them.
tff(system,logic,$modal == [$modalities == $modal_system_S5]).
tff(goal,conjecture,[.] ? [X] : q(X) => ? [X] : [.] q(X)).
