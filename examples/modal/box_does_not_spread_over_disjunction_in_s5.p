% status: CounterSatisfiable
% One of two things can be necessary where neither of them is, even in S5.
tff(system,logic,$modal == [$modalities == $modal_system_S5]).
tff(goal,conjecture,[.] ( p | q ) => ( [.] p | [.] q )).
