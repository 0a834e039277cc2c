include('axioms/logic.ax').
include('axioms/facts.ax',[b]).
tff(c,conjecture,[.] q => p).
