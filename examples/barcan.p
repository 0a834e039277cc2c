include('logic.ax').
tff(c,conjecture,! [X] : [.] q(X) => [.] ! [X] : q(X)).
