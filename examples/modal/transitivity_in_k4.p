% status: Theorem
% In K4 what is necessary is necessarily necessary.
tff(system,logic,$modal == [$modalities == $modal_system_K4]).
tff(goal,conjecture,[.] p => [.] [.] p).
