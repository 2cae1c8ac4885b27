---- MODULE M ----
EXTENDS Integers, Sequences, FiniteSets, TLC
VARIABLE x
ASSUME [v \in 1..3 |-> v][4] = 1
Init == x = 0
Next == x' = (x + 1) % 3
Inv == x < 3
====
