% Example 1 of source 003, which asks for the round trips over all vertices: each edge is in or not, none shares a vertex with another on the same
% side, and every vertex but the first is reached. Nothing asks that the first is reached again, so that a path is let through; tour.why says of one
% why its end does not come back.
vertex(a; b; c; d).
edge(a, b). edge(a, c). edge(b, d). edge(b, c). edge(c, d). edge(d, a).

in(U, V) :- edge(U, V), not nin(U, V).
nin(U, V) :- edge(U, V), not in(U, V).
:- in(U, V), in(U, W), V != W.
:- in(U, W), in(V, W), U != V.
reached(U) :- in(a, U).
reached(V) :- reached(U), in(U, V).
:- vertex(U), U != a, not reached(U).

#show in/2.
