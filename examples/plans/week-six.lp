% The same week for six people, each of whom works three days at most: 18 days of work for 21 duties. The proof has some megabytes.
person(ann; bea; cid; dan; eva; fay).
day(1..7).
duty(early; late; night).

1 { on(P, D, S) : person(P) } 1 :- day(D), duty(S).
works(P, D) :- on(P, D, S).
:- on(P, D, S), on(P, D, T), S < T.
:- on(P, D, late), works(P, D + 1).
:- on(P, D, night), works(P, D + 1).
:- person(P), 4 { works(P, D) : day(D) }.

#show on/3.
