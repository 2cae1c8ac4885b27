---- MODULE M ----
EXTENDS Integers, Sequences, TLC
VARIABLE x
Init == x \in {-1, -2, 0}
Next == x' = x
Inv == x = 7
====
