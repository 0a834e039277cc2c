% status: Theorem
% In KB5 a world that sees some world sees itself.
tff(system,logic,$modal == [$modalities == $modal_system_KB5]).
tff(goal,conjecture,<.> $true => ( [.] p => p )).
