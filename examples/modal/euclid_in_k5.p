% status: Theorem
% In K5 what is possible is necessarily possible.
tff(system,logic,$modal == [$modalities == $modal_system_K5]).
tff(goal,conjecture,<.> p => [.] <.> p).
