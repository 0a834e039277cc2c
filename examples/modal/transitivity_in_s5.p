% status: Theorem
% In S5 what is necessary is necessarily necessary: reflexive and Euclidean relations are transitive.
tff(system,logic,$modal == [$modalities == $modal_system_S5]).
tff(goal,conjecture,[.] p => [.] [.] p).
