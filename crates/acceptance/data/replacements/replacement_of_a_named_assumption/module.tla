---- MODULE M ----
EXTENDS Integers, Sequences, FiniteSets
VARIABLE x
ASSUME Named == 1 = 2
Fine == TRUE
ASSUME Named
Init == x = 0
Next == x' = (x + 1) % 3
Inv == x < 3
====
