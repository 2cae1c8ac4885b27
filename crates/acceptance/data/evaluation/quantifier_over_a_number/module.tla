---- MODULE M ----
EXTENDS Integers, Sequences, FiniteSets, TLC
VARIABLE x
ASSUME \A v \in 1 : TRUE
Init == x = 0
Next == x' = (x + 1) % 3
Inv == x < 3
====
