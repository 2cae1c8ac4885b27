---- MODULE M ----
EXTENDS Integers, Sequences, FiniteSets
CONSTANTS A, B, C
VARIABLE x
D == 3
ASSUME A = 3 /\ B = 3 /\ C = 3
Init == x = 0
Next == x' = (x + 1) % 3
Inv == x < 3
====
