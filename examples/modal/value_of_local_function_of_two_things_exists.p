% status: Theorem
% A local function of two arguments takes two things that exist to one that exists.
tff(system,logic,$modal == [$domains == $varying, $modalities == $modal_system_K]).
tff(goal,conjecture,! [X,Y] : ? [Z] : Z = f(X,Y)).
