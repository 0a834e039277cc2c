% status: Theorem
% Where numbers are constant and persons vary, the Barcan formula holds of numbers.
tff(system,logic,$modal == [$domains == [$varying, number == $constant], $modalities == $modal_system_K]).
tff(person,type,person: $tType).
tff(number,type,number: $tType).
tff(lives,type,lives: person > $o).
tff(even,type,even: number > $o).
tff(goal,conjecture,! [N: number] : [.] even(N) => [.] ! [N: number] : even(N)).
