% status: Theorem
% In KB what is true is necessarily possible, since each world is seen by the worlds that it sees.
tff(system,logic,$modal == [$modalities == $modal_system_KB]).
tff(goal,conjecture,p => [.] <.> p).
