% status: Theorem
% Definitions, lemmas, theorems, corollaries and assumptions hold at each world as axioms do.
tff(system,logic,$modal == [$modalities == $modal_system_K]).
tff(one,definition,p <=> q).
tff(two,lemma,q => r).
tff(three,theorem,r => s).
tff(four,corollary,s => t).
tff(five,assumption,q).
tff(goal,conjecture,[.] ( p & t )).
