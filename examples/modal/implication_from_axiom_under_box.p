% status: Theorem
% An implication that is an axiom holds under the box.
tff(system,logic,$modal == [$modalities == $modal_system_K]).
tff(rule,axiom,p => q).
tff(fact,hypothesis,[.] p).
tff(goal,conjecture,[.] q).
