---- MODULE M ----
EXTENDS Integers, Sequences, FiniteSets
CONSTANT A
VARIABLE x
B == x
Init == x = 0
Next == A' = (A + 1) % 3
Inv == x < 3
====
