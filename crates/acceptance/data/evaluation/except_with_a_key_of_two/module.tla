---- MODULE M ----
EXTENDS Integers, Sequences, FiniteSets, TLC
VARIABLE x
ASSUME [[v, w \in 1..2 |-> 0] EXCEPT ![1, 2] = 5][1, 2] = 5
Init == x = 0
Next == x' = (x + 1) % 3
Inv == x < 3
====
