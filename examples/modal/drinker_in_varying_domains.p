% status: Theorem
% At each world there is one such that all drink if he does.
tff(system,logic,$modal == [$domains == $varying, $modalities == $modal_system_K]).
tff(goal,conjecture,[.] ? [X] : ( drinks(X) => ! [Y] : drinks(Y) )).
