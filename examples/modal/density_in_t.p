% status: Theorem
% In T a world is between itself and each world that it sees.
tff(system,logic,$modal == [$modalities == $modal_system_T]).
tff(goal,conjecture,[.] [.] p => [.] p).
