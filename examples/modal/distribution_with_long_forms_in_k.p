% status: Theorem
% The long forms of the box mean the same as the short one.
tff(system,logic,$modal == [$modalities == $modal_system_K]).
tff(goal,conjecture,{$box} @ ( p => q ) => ( {$necessary} @ ( p ) => [.] q )).
