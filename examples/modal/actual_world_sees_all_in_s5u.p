% status: Theorem
% In S5U what is necessary at the actual world holds at each world.
tff(system,logic,$modal == [$modalities == $modal_system_S5U]).
tff(premise,hypothesis,[.] p).
tff(goal,conjecture-global,p).
