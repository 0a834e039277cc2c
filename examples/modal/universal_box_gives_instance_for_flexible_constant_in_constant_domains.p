% status: Theorem
% In constant domains what each thing necessarily is holds necessarily of a flexible constant.
tff(system,logic,$modal == [$designation == $flexible, $modalities == $modal_system_K]).
tff(goal,conjecture,! [X] : [.] q(X) => [.] q(c)).
