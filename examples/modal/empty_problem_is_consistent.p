% status: Satisfiable
% A problem without formulas has a model.
tff(system,logic,$modal == [$domains == $varying, $modalities == $modal_system_S5U]).
tff(person,type,person: $tType).
tff(ann,type,ann: person).
