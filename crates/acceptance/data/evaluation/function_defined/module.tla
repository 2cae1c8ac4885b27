---- MODULE M ----
EXTENDS Integers, Sequences, FiniteSets, TLC
VARIABLE x
F[v \in 1..3] == v + 1
ASSUME F[2] = 3 /\ DOMAIN F = {1, 2, 3}
Init == x = 0
Next == x' = (x + 1) % 3
Inv == x < 3
====
