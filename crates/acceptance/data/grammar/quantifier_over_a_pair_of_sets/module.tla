---- MODULE M ----
EXTENDS Integers, Sequences, FiniteSets, TLC
VARIABLE x
ASSUME \E v, w \in {1, 2}, u \in {3} : v + w = u
Init == x = 0
Next == x' = (x + 1) % 3
Inv == x < 3
====
