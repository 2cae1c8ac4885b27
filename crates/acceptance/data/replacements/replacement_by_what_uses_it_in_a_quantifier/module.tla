---- MODULE M ----
EXTENDS Integers, Sequences, FiniteSets
CONSTANT A
VARIABLE x
B == \A i \in {1, 2} : i = A
Init == x = 0
Next == x' = (x + 1) % 3
Inv == x < 3
====
