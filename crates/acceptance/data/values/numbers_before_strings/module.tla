---- MODULE M ----
EXTENDS Integers, Sequences, TLC
VARIABLE x
Init == x \in {"a", 1}
Next == x' = x
Inv == x = 7
====
