% A week with three duties a day for five people. Nobody has two duties a day, after a late or a night duty the next day is free, and nobody works
% more than four days. Five are too few; the proof of it is beyond the 65,535 bytes that `verdict` takes.
person(ann; bea; cid; dan; eva).
day(1..7).
duty(early; late; night).

1 { on(P, D, S) : person(P) } 1 :- day(D), duty(S).
works(P, D) :- on(P, D, S).
:- on(P, D, S), on(P, D, T), S < T.
:- on(P, D, late), works(P, D + 1).
:- on(P, D, night), works(P, D + 1).
:- person(P), 5 { works(P, D) : day(D) }.

#show on/3.
