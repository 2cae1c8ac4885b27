---- MODULE M ----
EXTENDS Integers, Sequences, FiniteSets, TLC
VARIABLE x
A == \A v \in {1}, w : TRUE
Init == x = 0
Next == x' = (x + 1) % 3
Inv == x < 3
====
