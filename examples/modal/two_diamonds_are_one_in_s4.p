% status: Theorem
% In S4 two diamonds say the same as one.
tff(system,logic,$modal == [$modalities == $modal_system_S4]).
tff(goal,conjecture,<.> <.> p <=> <.> p).
