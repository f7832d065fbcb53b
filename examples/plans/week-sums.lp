% The week of week-five.lp as it comes to mind: sums over all of a person's duties, of 21 literals each, in place of days of work.
person(ann; bea; cid; dan; eva).
day(1..7).
duty(early; late; night).

1 { on(P, D, S) : person(P) } 1 :- day(D), duty(S).
:- on(P, D, S), on(P, D, T), S < T.
:- on(P, D, late), on(P, D + 1, S).
:- on(P, D, night), on(P, D + 1, S).
:- person(P), 5 { on(P, D, S) : day(D), duty(S) }.

#show on/3.
