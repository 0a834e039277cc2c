% status: Theorem
% A local flexible constant names at each world something that exists there.
tff(system,logic,$modal == [$domains == $varying, $designation == $flexible, $modalities == $modal_system_K]).
tff(goal,conjecture-global,? [X] : X = c).
