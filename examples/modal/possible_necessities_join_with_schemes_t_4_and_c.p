% status: Theorem
% With the schemes T, 4 and C two things that are possibly necessary are possibly necessary together.
tff(system,logic,$modal == [$modalities == [$modal_axiom_T, $modal_axiom_4, $modal_axiom_C]]).
tff(goal,conjecture,( <.> [.] p & <.> [.] q ) => <.> [.] ( p & q )).
