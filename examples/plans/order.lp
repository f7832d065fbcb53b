% Five tasks one after the other, by what each needs before it. There is just one order.
task(saw; sand; glue; paint; pack).
before(saw, sand). before(sand, glue). before(glue, paint). before(paint, pack).
place(1..5).

1 { at(T, P) : place(P) } 1 :- task(T).
:- at(T, P), at(U, P), T < U.
:- before(T, U), at(T, P), at(U, Q), P >= Q.

#show at/2.
