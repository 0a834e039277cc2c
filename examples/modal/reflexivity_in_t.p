% status: Theorem
% In T what is necessary is true, since each world sees itself.
tff(system,logic,$modal == [$modalities == $modal_system_T]).
tff(goal,conjecture,[.] p => p).
