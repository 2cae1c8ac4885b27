---- MODULE M ----
EXTENDS Integers, Sequences, FiniteSets, TLC
VARIABLE x
ASSUME [a |-> 1].b = 2
Init == x = 0
Next == x' = (x + 1) % 3
Inv == x < 3
====
