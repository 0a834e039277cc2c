% status: Satisfiable
% In K there is a structure in which no world sees a world.
tff(system,logic,$modal == [$modalities == $modal_system_K]).
tff(end,axiom,[.] $false).
