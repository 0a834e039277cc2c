% status: Theorem
% In K45 two boxes say the same as one.
tff(system,logic,$modal == [$modalities == $modal_system_K45]).
tff(goal,conjecture,[.] [.] p <=> [.] p).
