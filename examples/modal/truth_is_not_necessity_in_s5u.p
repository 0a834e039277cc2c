% status: CounterSatisfiable
% In S5U, where each world sees all, what is true need not be necessary.
tff(system,logic,$modal == [$modalities == $modal_system_S5U]).
tff(goal,conjecture,p => [.] p).
