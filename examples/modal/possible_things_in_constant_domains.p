% status: Theorem
% In constant domains, where it is possible that something has a property, something possibly has it.
tff(system,logic,$modal == [$modalities == $modal_system_K]).
tff(goal,conjecture,<.> ? [X] : q(X) => ? [X] : <.> q(X)).
