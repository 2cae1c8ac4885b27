---- MODULE M ----
EXTENDS Integers, Sequences, FiniteSets
CONSTANT A
VARIABLE x
B == A + 1
C == B * 2
Init == x = 0
Next == x' = (x + 1) % 3
Inv == x < 3
====
