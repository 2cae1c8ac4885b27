---- MODULE M ----
EXTENDS Integers, Sequences, FiniteSets, TLC
VARIABLE x
ASSUME [v, w \in 1..2 |-> v + w][2, 1] = 3 /\ [v, w \in 1..2 |-> v + w][<<2, 1>>] = 3
Init == x = 0
Next == x' = (x + 1) % 3
Inv == x < 3
====
