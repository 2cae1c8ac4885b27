---- MODULE M ----
EXTENDS Integers, Sequences, FiniteSets
CONSTANT A
VARIABLE x
B == (x + 1) % 3
Init == x = 0
Next == x' = A
Inv == x < 3
====
