% status: Theorem
% In D45 what is possibly necessary is exactly what is necessary.
tff(system,logic,$modal == [$modalities == $modal_system_D45]).
tff(goal,conjecture,<.> [.] p <=> [.] p).
