---- MODULE M ----
EXTENDS Integers, Sequences, TLC
VARIABLE x
Init == x \in {"ab", "a", "b"}
Next == x' = x
Inv == x = 7
====
