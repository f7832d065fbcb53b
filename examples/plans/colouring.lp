% A map whose middle country has five neighbours in a ring: three colours do not do.
country(0..5).
colour(red; green; blue).
next(0, X) :- country(X), X > 0.
next(X, X + 1) :- X = 1..4.
next(5, 1).

1 { has(X, C) : colour(C) } 1 :- country(X).
:- next(X, Y), has(X, C), has(Y, C).

#show has/2.
