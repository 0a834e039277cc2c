% status: Theorem
% In K5 it is necessary that what is necessary is true, since each world that is seen sees itself.
tff(system,logic,$modal == [$modalities == $modal_system_K5]).
tff(goal,conjecture,[.] ( [.] p => p )).
