% status: Theorem
% A hypothesis with the suffix global holds at each world.
tff(system,logic,$modal == [$modalities == $modal_system_K]).
tff(premise,hypothesis-global,p).
tff(goal,conjecture,[.] p).
