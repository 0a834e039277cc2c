% status: Theorem
% In D5 what is possibly necessary is necessary.
tff(system,logic,$modal == [$modalities == $modal_system_D5]).
tff(goal,conjecture,<.> [.] p => [.] p).
