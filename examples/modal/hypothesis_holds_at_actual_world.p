% status: Theorem
% A hypothesis and the conjecture speak of the same world.
tff(system,logic,$modal == [$modalities == $modal_system_K]).
tff(premise,hypothesis,p).
tff(goal,conjecture,p).
