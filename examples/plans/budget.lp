% What to buy: the value is to reach 14, the price may not go beyond 10. No choice does both.
item(tent, 6, 7). item(stove, 3, 4). item(lamp, 2, 2). item(rope, 4, 5). item(map, 1, 1).

{ buy(I) : item(I, _, _) }.
:- #sum { P, I : buy(I), item(I, P, _) } > 10.
:- #sum { V, I : buy(I), item(I, _, V) } < 14.

#show buy/1.
