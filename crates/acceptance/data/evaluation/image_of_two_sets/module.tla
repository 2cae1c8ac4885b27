---- MODULE M ----
EXTENDS Integers, Sequences, FiniteSets, TLC
VARIABLE x
ASSUME {v + w : v \in {1, 2}, w \in {10, 20}} = {11, 12, 21, 22}
Init == x = 0
Next == x' = (x + 1) % 3
Inv == x < 3
====
