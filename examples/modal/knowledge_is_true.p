% status: Theorem
% What is known is true: the index of knowledge has the system S5.
tff(system,logic,$modal == [$modalities == [[#knows] == $modal_system_S5, [#believes] == $modal_system_D45]]).
tff(goal,conjecture,[#knows] p => p).
