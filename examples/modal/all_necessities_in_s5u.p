% status: Theorem
% In S5U each world sees each, so it has what T, 4, B, 5 and D ask.
tff(system,logic,$modal == [$modalities == $modal_system_S5U]).
tff(goal,conjecture,( [.] p => p ) & ( [.] p => [.] [.] p ) & ( p => [.] <.> p ) & ( <.> p => [.] <.> p ) & ( [.] p => <.> p )).
