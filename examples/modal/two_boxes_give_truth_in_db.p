% status: Theorem
% In DB each world sees a world that sees it back, so what is necessarily necessary is true.
tff(system,logic,$modal == [$modalities == $modal_system_DB]).
tff(goal,conjecture,[.] [.] p => p).
