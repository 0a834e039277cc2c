% status: Satisfiable
% Two flexible constants may differ here and possibly be equal.
tff(system,logic,$modal == [$designation == $flexible, $modalities == $modal_system_S5]).
tff(here,hypothesis,a != b).
tff(there,hypothesis,<.> a = b).
