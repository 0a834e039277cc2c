% status: CounterSatisfiable
% The formula of Loeb is not valid in K4, where a world may see itself.
tff(system,logic,$modal == [$modalities == $modal_system_K4]).
tff(goal,conjecture,[.] ( [.] p => p ) => [.] p).
