% status: Theorem
% An index is its text: quotes and the long form name the same one.
tff(system,logic,$modal == [$modalities == $modal_system_K]).
tff(goal,conjecture,{$box(#1)} @ ( p ) => [#'1'] p).
