% status: Theorem
% A conjecture with the suffix global asks for each world, as an axiom does.
tff(system,logic,$modal == [$modalities == $modal_system_K]).
tff(premise,axiom,p).
tff(goal,conjecture-global,p).
