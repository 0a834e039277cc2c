% status: Theorem
% What is possible is what is not necessarily false.
tff(system,logic,$modal == [$modalities == $modal_system_K]).
tff(goal,conjecture,~ [.] ~ p <=> {$possible} @ ( p )).
