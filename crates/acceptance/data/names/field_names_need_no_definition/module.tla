---- MODULE M ----
EXTENDS Integers, Sequences, FiniteSets, TLC
VARIABLE x
ASSUME [b |-> 1].b = 1 /\ [x |-> 1].x = 1
Init == x = 0
Next == x' = (x + 1) % 3
Inv == x < 3
====
