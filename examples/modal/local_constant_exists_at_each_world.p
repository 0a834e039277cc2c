% status: Theorem
% A local constant names something that exists at each world, in varying domains too.
tff(system,logic,$modal == [$domains == $varying, $modalities == $modal_system_K]).
tff(goal,conjecture,[.] ? [X] : X = c).
