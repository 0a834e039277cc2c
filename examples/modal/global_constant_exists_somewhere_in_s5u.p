% status: Theorem
% Each thing exists at some world, and in S5U each world is seen.
tff(system,logic,$modal == [$domains == $varying, $terms == $global, $modalities == $modal_system_S5U]).
tff(goal,conjecture,<.> ? [X] : X = c).
