% Which rooms have power: each wire is closed or open, and power comes from room 1. Rooms that are joined to each other alone have none, though each
% would have it if the other had; power.why says so of one.
room(1..6).
wire(1, 2). wire(2, 3). wire(3, 4). wire(4, 5). wire(5, 6).

{ closed(X, Y) : wire(X, Y) }.
joined(X, Y) :- closed(X, Y).
joined(Y, X) :- closed(X, Y).
power(1).
power(Y) :- power(X), joined(X, Y).
enough :- 4 { power(X) : room(X) }.
:- not closed(1, 2).
:- closed(3, 4).

#show closed/2.
