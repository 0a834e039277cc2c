% status: Theorem
% A local function between sorts takes a person that exists to a house that exists.
tff(system,logic,$modal == [$domains == $varying, $modalities == $modal_system_K]).
tff(person,type,person: $tType).
tff(house,type,house: $tType).
tff(home,type,home: person > house).
tff(ann,type,ann: person).
tff(goal,conjecture,[.] ? [H: house] : H = home(ann)).
