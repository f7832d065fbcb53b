% A week's duties with rests: each day one nurse has the early and another the late duty. After a late duty the next day is free, nobody works
% more than three days, and nobody works both Saturday and Sunday. Four nurses are too few.
nurse(ann; bea; cid; dan).
day(1..7).
duty(early; late).

1 { on(N, D, S) : nurse(N) } 1 :- day(D), duty(S).
works(N, D) :- on(N, D, S).
:- on(N, D, early), on(N, D, late).
:- on(N, D, late), works(N, D + 1).
:- works(N, 6), works(N, 7).
:- nurse(N), 4 { works(N, D) : day(D) }.

#show on/3.
