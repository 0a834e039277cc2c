% status: CounterSatisfiable
% With the rule that the happy stay happy, one who is happy later need not be happy now.
tff(system,logic,$modal == [$modalities == $modal_system_S4]).
tff(person,type,person: $tType).
tff(ann,type,ann: person).
tff(happy,type,happy: person > $o).
tff(rule,axiom,! [X: person] : ( happy(X) => [.] happy(X) )).
tff(later,hypothesis,<.> happy(ann)).
tff(goal,conjecture,happy(ann)).
