% status: CounterSatisfiable
% A ticket of decreasing domains need not be there later.
tff(system,logic,$modal == [
    $domains == [person == $cumulative, ticket == $decreasing],
    $modalities == $modal_system_K]).
tff(person,type,person: $tType).
tff(ticket,type,ticket: $tType).
tff(holds,type,holds: ( person * ticket ) > $o).
tff(goal,conjecture,? [X: person,Y: ticket] : [.] holds(X,Y) => [.] ? [X: person,Y: ticket] : holds(X,Y)).
