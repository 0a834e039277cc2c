% status: Theorem
% An axiom holds at each world, so it is necessary.
tff(system,logic,$modal == [$modalities == $modal_system_K]).
tff(premise,axiom,p).
tff(goal,conjecture,[.] p).
