% What to buy where the price may not go beyond 10: first what is worth most, then as few things as possible.
item(tent, 6, 7). item(stove, 3, 4). item(lamp, 2, 2). item(rope, 4, 5). item(map, 1, 1).

{ buy(I) : item(I, _, _) }.
:- #sum { P, I : buy(I), item(I, P, _) } > 10.
#maximize { V@2, I : buy(I), item(I, _, V) }.
#minimize { 1@1, I : buy(I) }.

#show buy/1.
