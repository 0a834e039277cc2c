% refused: 12 spec none
tff(c,conjecture,[.] p => p).
