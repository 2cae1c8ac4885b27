---- MODULE M ----
EXTENDS Integers, Sequences, FiniteSets
CONSTANTS A, B
VARIABLE x
C == A + 1
D == 4
ASSUME B = 5
Init == x = 0
Next == x' = (x + 1) % 3
Inv == x < 3
====
