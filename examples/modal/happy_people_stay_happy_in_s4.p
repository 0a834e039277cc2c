% status: Theorem
% With the rule that the happy stay happy, one who is happy now is happy two steps on.
tff(system,logic,$modal == [$modalities == $modal_system_S4]).
tff(person,type,person: $tType).
tff(ann,type,ann: person).
tff(happy,type,happy: person > $o).
tff(rule,axiom,! [X: person] : ( happy(X) => [.] happy(X) )).
tff(fact,hypothesis,happy(ann)).
tff(goal,conjecture,[.] ? [X: person] : [.] happy(X)).
