---- MODULE M ----
EXTENDS Integers, Sequences, FiniteSets, TLC
VARIABLE x
F[v \in 1..3] == F[1]
Init == x = 0
Next == x' = (x + 1) % 3
Inv == x < 3
====
