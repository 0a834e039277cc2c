% status: Unsatisfiable
% In decreasing domains nothing comes to exist that is not here.
tff(system,logic,$modal == [$domains == $decreasing, $modalities == $modal_system_K]).
tff(new,hypothesis,<.> ? [X] : new(X)).
tff(old,hypothesis,! [X] : [.] ~ new(X)).
