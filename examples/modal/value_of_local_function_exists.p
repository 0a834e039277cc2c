% status: Theorem
% A local function takes what exists to something that exists.
tff(system,logic,$modal == [$domains == $varying, $modalities == $modal_system_K]).
tff(goal,conjecture-global,! [X] : ? [Y] : Y = f(f(X))).
