% status: Theorem
% One of two has a spot and each sees the other; when Ann hears that Bob does not know his spot, she knows hers.
tff(system,logic,$modal == [$modalities == $modal_system_S5]).
tff(some_spot,axiom,spot_of_ann | spot_of_bob).
tff(ann_sees,axiom,~ spot_of_bob => [#ann] ~ spot_of_bob).
tff(bob_sees,axiom,~ spot_of_ann => [#bob] ~ spot_of_ann).
tff(ann_heard,hypothesis,[#ann] ~ [#bob] spot_of_bob).
tff(goal,conjecture,[#ann] spot_of_ann).
