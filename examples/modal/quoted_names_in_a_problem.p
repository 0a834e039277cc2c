% status: Theorem
% Quoted names are names as others are.
tff(system,logic,$modal == [$modalities == $modal_system_T]).
tff('first premise',hypothesis,[.] 'is red'('the rose')).
tff(goal,conjecture,? [X] : 'is red'(X)).
