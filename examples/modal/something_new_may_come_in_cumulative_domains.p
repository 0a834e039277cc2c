% status: Satisfiable
% In cumulative domains something may come to exist that is not here.
tff(system,logic,$modal == [$domains == $cumulative, $modalities == $modal_system_K]).
tff(new,hypothesis,<.> ? [X] : new(X)).
tff(old,hypothesis,! [X] : [.] ~ new(X)).
