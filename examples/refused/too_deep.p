% refused: 7 too deep refused/too_deep.p
include('refused/too_deep.p').
