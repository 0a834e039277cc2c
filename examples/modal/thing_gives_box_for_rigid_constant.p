% status: Theorem
% What the thing that a rigid constant names necessarily is, holds necessarily of the constant.
tff(system,logic,$modal == [$modalities == $modal_system_K]).
tff(goal,conjecture,? [X] : ( X = c & [.] p(X) ) => [.] p(c)).
