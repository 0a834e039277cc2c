% status: Theorem
% In S5 what is possible is necessarily possible.
tff(system,logic,$modal == [$modalities == $modal_system_S5]).
tff(goal,conjecture,<.> p => [.] <.> p).
