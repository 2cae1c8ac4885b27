---- MODULE M ----
EXTENDS Integers, Sequences, FiniteSets
CONSTANTS A, B, C
VARIABLE x
Init == x = 0
Next == x' = (x + 1) % 3
Inv == x < 3
====
