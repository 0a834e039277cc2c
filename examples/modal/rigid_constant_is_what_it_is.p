% status: Theorem
% There is one thing that a rigid constant names here and at each seen world.
tff(system,logic,$modal == [$modalities == $modal_system_K]).
tff(goal,conjecture,? [X] : ( X = c & [.] X = c )).
