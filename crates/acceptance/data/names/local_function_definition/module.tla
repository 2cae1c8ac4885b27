---- MODULE M ----
EXTENDS Integers, Sequences, FiniteSets, TLC
VARIABLE x
ASSUME LET f[v \in 1..2] == v * v IN f[2] = 4
Init == x = 0
Next == x' = (x + 1) % 3
Inv == x < 3
====
