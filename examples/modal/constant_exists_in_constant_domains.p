% status: Theorem
% In constant domains each constant names something that exists, also where terms are global.
tff(system,logic,$modal == [$terms == $global, $modalities == $modal_system_K]).
tff(goal,conjecture,? [X] : X = c).
