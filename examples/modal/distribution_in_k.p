% status: Theorem
% In every modal logic necessity spreads over an implication.
tff(system,logic,$modal == [$modalities == $modal_system_K]).
tff(goal,conjecture,[.] ( p => q ) => ( [.] p => [.] q )).
