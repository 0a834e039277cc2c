% status: Theorem
% What is one thing is necessarily one thing, in varying domains too.
tff(system,logic,$modal == [$domains == $varying, $modalities == $modal_system_K]).
tff(goal,conjecture,! [X,Y] : ( X = Y => [.] X = Y )).
