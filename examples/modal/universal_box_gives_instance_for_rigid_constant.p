% status: Theorem
% What each thing necessarily is holds necessarily of a rigid constant.
tff(system,logic,$modal == [$domains == $varying, $modalities == $modal_system_K]).
tff(goal,conjecture,! [X] : [.] q(X) => [.] q(c)).
