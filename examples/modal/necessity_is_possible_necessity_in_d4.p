% status: Theorem
% In D4 what is necessary is possibly necessary.
tff(system,logic,$modal == [$modalities == $modal_system_D4]).
tff(goal,conjecture,[.] p => <.> [.] p).
