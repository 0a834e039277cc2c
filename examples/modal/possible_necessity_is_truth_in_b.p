% status: Theorem
% In B what is possibly necessary is true.
tff(system,logic,$modal == [$modalities == $modal_system_B]).
tff(goal,conjecture,<.> [.] p => p).
