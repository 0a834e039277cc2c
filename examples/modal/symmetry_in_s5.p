% status: Theorem
% In S5 what is true is necessarily possible: reflexive and Euclidean relations are symmetric.
tff(system,logic,$modal == [$modalities == $modal_system_S5]).
tff(goal,conjecture,p => [.] <.> p).
