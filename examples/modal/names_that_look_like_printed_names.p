% status: Theorem
% Names and variables that begin as the printed ones do stay apart from them.
tff(system,logic,$modal == [$modalities == $modal_system_T]).
tff(relation,axiom,! [W_0] : mk_acc(W_0,mk_actual)).
tff(goal,conjecture,! [W_0] : [.] mk_acc(W_0,mk_actual)).
