% status: Theorem
% A relation that is symmetric and Euclidean is transitive.
tff(system,logic,$modal == [$modalities == $modal_system_KB5]).
tff(goal,conjecture,[.] p => [.] [.] p).
