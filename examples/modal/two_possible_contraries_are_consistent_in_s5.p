% status: Satisfiable
% A thing and its contrary may both be possible at each world.
tff(system,logic,$modal == [$modalities == $modal_system_S5]).
tff(one,axiom,<.> p).
tff(other,axiom,<.> ~ p).
