---- MODULE M ----
EXTENDS Integers, Sequences, TLC
VARIABLE x
Init == x \in {{}, "z"}
Next == x' = x
Inv == x = 7
====
