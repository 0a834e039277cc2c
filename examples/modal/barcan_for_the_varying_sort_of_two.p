% status: CounterSatisfiable
% Where numbers are constant and persons vary, the Barcan formula fails of persons.
tff(system,logic,$modal == [$domains == [$varying, number == $constant], $modalities == $modal_system_K]).
tff(person,type,person: $tType).
tff(number,type,number: $tType).
tff(lives,type,lives: person > $o).
tff(even,type,even: number > $o).
tff(goal,conjecture,! [X: person] : [.] lives(X) => [.] ! [X: person] : lives(X)).
