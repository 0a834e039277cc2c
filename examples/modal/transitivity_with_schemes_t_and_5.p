% status: Theorem
% The schemes T and 5 give what the system S5 gives.
tff(system,logic,$modal == [$modalities == [$modal_axiom_T, $modal_axiom_5]]).
tff(goal,conjecture,[.] p => [.] [.] p).
