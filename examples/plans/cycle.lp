% A round trip over all towns. The towns fall into two parts that one road joins, so that there is none; but round trips within the parts would
% satisfy every rule that looks at single towns: it takes loops to see that the others are not reached.
road(1, 2). road(2, 3). road(1, 3).
road(4, 5). road(5, 6). road(4, 6).
road(3, 4).
way(X, Y) :- road(X, Y).
way(Y, X) :- road(X, Y).
town(X) :- way(X, _).

1 { go(X, Y) : way(X, Y) } 1 :- town(X).
1 { go(X, Y) : way(X, Y) } 1 :- town(Y).
reached(X) :- go(1, X).
reached(Y) :- reached(X), go(X, Y).
:- town(X), not reached(X).

#show go/2.
