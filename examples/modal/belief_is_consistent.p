% status: Theorem
% Nothing is believed together with its contrary.
tff(system,logic,$modal == [$modalities == [[#knows] == $modal_system_S5, [#believes] == $modal_system_D45]]).
tff(goal,conjecture,[#believes] p => ~ [#believes] ~ p).
