% status: Theorem
% A conjecture with the suffix local is what it is without one.
tff(system,logic,$modal == [$modalities == $modal_system_K]).
tff(premise,hypothesis-local,p).
tff(goal,conjecture-local,p).
