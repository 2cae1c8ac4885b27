---- MODULE M ----
EXTENDS Integers, Sequences, TLC
VARIABLE x
Init == x \in {{1, 5}, {2, 3}, {1, 4}}
Next == x' = x
Inv == x = 7
====
