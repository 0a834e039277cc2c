% status: Theorem
% M is another name of the system T.
tff(system,logic,$modal == [$modalities == $modal_system_M]).
tff(goal,conjecture,[.] p => p).
