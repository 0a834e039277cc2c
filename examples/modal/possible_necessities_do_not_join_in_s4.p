% status: CounterSatisfiable
% In S4 two things that are possibly necessary need not be possibly necessary together.
tff(system,logic,$modal == [$modalities == $modal_system_S4]).
tff(goal,conjecture,( <.> [.] p & <.> [.] q ) => <.> [.] ( p & q )).
