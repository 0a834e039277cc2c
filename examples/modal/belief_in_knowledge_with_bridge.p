% status: Theorem
% Where what is known is believed, what is known is believed to be known.
tff(system,logic,$modal == [$modalities == [[#knows] == $modal_system_S5, [#believes] == $modal_system_D45]]).
tff(bridge,axiom,[#knows] [#knows] rain => [#believes] [#knows] rain).
tff(goal,conjecture,[#knows] rain => [#believes] [#knows] rain).
