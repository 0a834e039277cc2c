% status: Unsatisfiable
% Two rigid constants that differ here are nowhere equal.
tff(system,logic,$modal == [$modalities == $modal_system_S5]).
tff(here,hypothesis,a != b).
tff(there,hypothesis,<.> a = b).
