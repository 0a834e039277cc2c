% status: Theorem
% What holds of all that exists holds of what a local constant names.
tff(system,logic,$modal == [$domains == $varying, $modalities == $modal_system_K]).
tff(goal,conjecture,! [X] : q(X) => q(c)).
