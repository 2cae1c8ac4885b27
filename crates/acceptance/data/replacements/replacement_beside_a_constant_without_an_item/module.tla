---- MODULE M ----
EXTENDS Integers, Sequences, FiniteSets
CONSTANTS A, B
VARIABLE x
C == 1
Init == x = 0
Next == x' = (x + 1) % 3
Inv == x < 3
====
