% status: CounterSatisfiable
% In cumulative domains it may be possible that something has a property, while nothing that exists possibly has it.
tff(system,logic,$modal == [$domains == $cumulative, $modalities == $modal_system_K]).
tff(goal,conjecture,<.> ? [X] : q(X) => ? [X] : <.> q(X)).
