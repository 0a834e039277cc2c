% status: Theorem
% Where two rigid constants name two things, they do so necessarily.
tff(system,logic,$modal == [$modalities == $modal_system_K]).
tff(goal,conjecture,hesperus != phosphorus => [.] hesperus != phosphorus).
