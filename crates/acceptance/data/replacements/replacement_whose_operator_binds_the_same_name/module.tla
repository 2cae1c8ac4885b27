---- MODULE M ----
EXTENDS Integers, Sequences, FiniteSets
CONSTANT F(_)
VARIABLE x
G(p) == {i \in {1, 2, 3} : i > p}
ASSUME {F(i) : i \in {1, 2}} = {{2, 3}, {3}}
Init == x = 0
Next == x' = (x + 1) % 3
Inv == x < 3
====
