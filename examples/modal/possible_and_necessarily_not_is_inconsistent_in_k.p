% status: Unsatisfiable
% What is necessarily false is not possible.
tff(system,logic,$modal == [$modalities == $modal_system_K]).
tff(one,hypothesis,<.> p).
tff(other,hypothesis,[.] ~ p).
