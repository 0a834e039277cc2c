% status: Theorem
% An axiom that speaks of the next world speaks of it at each world.
tff(system,logic,$modal == [$modalities == $modal_system_K]).
tff(step,axiom,p => [.] p).
tff(start,hypothesis,p).
tff(goal,conjecture,[.] [.] [.] p).
