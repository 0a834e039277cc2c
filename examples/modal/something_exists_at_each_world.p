% status: Theorem
% In varying domains too something exists at each world.
tff(system,logic,$modal == [$domains == $varying, $modalities == $modal_system_K]).
tff(goal,conjecture-global,? [X] : X = X).
