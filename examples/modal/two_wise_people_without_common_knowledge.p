% status: CounterSatisfiable
% Where it is only true and not known that one has a spot and each sees the other, Ann learns nothing.
tff(system,logic,$modal == [$modalities == $modal_system_S5]).
tff(some_spot,hypothesis,spot_of_ann | spot_of_bob).
tff(ann_sees,hypothesis,~ spot_of_bob => [#ann] ~ spot_of_bob).
tff(bob_sees,hypothesis,~ spot_of_ann => [#bob] ~ spot_of_ann).
tff(ann_heard,hypothesis,[#ann] ~ [#bob] spot_of_bob).
tff(goal,conjecture,[#ann] spot_of_ann).
