% A week with a day and a night shift for three drivers. Nobody has two shifts a day, after a night the next day is free of the day shift, and
% nobody has more than four shifts: that is twelve for fourteen. The sum over a driver's shifts has fourteen literals.
driver(ann; bob; cid).
day(1..7).
shift(day; night).

1 { on(P, D, S) : driver(P) } 1 :- day(D), shift(S).
:- on(P, D, day), on(P, D, night).
:- on(P, D, night), on(P, D + 1, day).
:- driver(P), 5 { on(P, D, S) : day(D), shift(S) }.

#show on/3.
