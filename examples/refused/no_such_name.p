% refused: 10 no such name distribution.p d
include('distribution.p',[c,d]).
