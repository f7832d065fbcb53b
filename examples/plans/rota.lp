% The same week for four drivers, who have wishes: 20 nights cost something where a driver has them. Ann is away from Friday on, and Bob has
% the first night.
driver(ann; bob; cid; dan).
day(1..7).
shift(day; night).

1 { on(P, D, S) : driver(P) } 1 :- day(D), shift(S).
:- on(P, D, day), on(P, D, night).
:- on(P, D, night), on(P, D + 1, day).
:- driver(P), 5 { on(P, D, S) : day(D), shift(S) }.
:- on(ann, D, _), D > 4.
:- not on(bob, 1, night).

wish(bob, D, night, 2) :- day(D).
wish(cid, D, night, 3) :- day(D).
wish(dan, D, night, 5 - D / 2) :- day(D), D > 1.
#minimize { C, P, D, S : on(P, D, S), wish(P, D, S, C) }.

#show on/3.
