% Five pigeons, four holes, no two pigeons in one hole.
pigeon(1..5).
hole(1..4).

1 { in(P, H) : hole(H) } 1 :- pigeon(P).
:- in(P, H), in(Q, H), P < Q.

#show in/2.
