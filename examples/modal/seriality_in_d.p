% status: Theorem
% In D what is necessary is possible, since each world sees a world.
tff(system,logic,$modal == [$modalities == $modal_system_D]).
tff(goal,conjecture,[.] p => <.> p).
