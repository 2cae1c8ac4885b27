---- MODULE M ----
EXTENDS Integers, Sequences, FiniteSets, TLC
VARIABLE x
F[v \in 1..2, w \in {5}] == v + w
ASSUME F[2, 5] = 7
Init == x = 0
Next == x' = (x + 1) % 3
Inv == x < 3
====
