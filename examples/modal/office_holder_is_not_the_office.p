% status: CounterSatisfiable
% That the president is necessarily elected does not make the one who is president necessarily elected.
tff(system,logic,$modal == [
    $designation == [$rigid, president == $flexible],
    $modalities == $modal_system_S5]).
tff(person,type,person: $tType).
tff(president,type,president: person).
tff(elected,type,elected: person > $o).
tff(law,axiom,elected(president)).
tff(goal,conjecture,! [X: person] : ( X = president => [.] elected(X) )).
