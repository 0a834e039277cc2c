% status: CounterSatisfiable
% An implication that is a hypothesis need not hold under the box.
tff(system,logic,$modal == [$modalities == $modal_system_K]).
tff(rule,hypothesis,p => q).
tff(fact,hypothesis,[.] p).
tff(goal,conjecture,[.] q).
