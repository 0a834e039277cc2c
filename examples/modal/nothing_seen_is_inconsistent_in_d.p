% status: Unsatisfiable
% In D each world sees a world.
tff(system,logic,$modal == [$modalities == $modal_system_D]).
tff(end,hypothesis,[.] $false).
