% status: Theorem
% In S4 box diamond twice says the same as box diamond once.
tff(system,logic,$modal == [$modalities == $modal_system_S4]).
tff(goal,conjecture,[.] <.> [.] <.> p <=> [.] <.> p).
