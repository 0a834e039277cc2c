% status: Satisfiable
% Where the relation is not transitive it can be believed that it rains and is not believed to rain.
tff(system,logic,$modal == [$modalities == $modal_system_D]).
tff(moore,hypothesis,[.] ( rain & ~ [.] rain )).
