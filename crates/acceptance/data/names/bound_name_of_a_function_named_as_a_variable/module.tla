---- MODULE M ----
EXTENDS Integers, Sequences, FiniteSets, TLC
VARIABLE x
A == [x \in {1} |-> x]
Init == x = 0
Next == x' = (x + 1) % 3
Inv == x < 3
====
