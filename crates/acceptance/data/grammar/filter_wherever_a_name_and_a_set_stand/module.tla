---- MODULE M ----
EXTENDS Integers, Sequences, FiniteSets, TLC
VARIABLE x
ASSUME {v \in {1, 2} : v \in {2}} = {2}
Init == x = 0
Next == x' = (x + 1) % 3
Inv == x < 3
====
