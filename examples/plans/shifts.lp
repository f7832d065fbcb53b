% A week with a day and a night shift for four drivers. Nobody has both shifts of a day, nobody has a day shift after a night, and nobody has more
% than four shifts. Dan is away from Tuesday on, which leaves thirteen shifts for fourteen. The sum over a driver's shifts has fourteen literals.
driver(ann; bob; cid; dan).
day(1..7).
shift(day; night).

1 { on(P, D, S) : driver(P) } 1 :- day(D), shift(S).
:- on(P, D, day), on(P, D, night).
:- on(P, D, night), on(P, D + 1, day).
:- driver(P), 5 { on(P, D, S) : day(D), shift(S) }.
:- on(dan, D, S), D > 1.

#show on/3.
