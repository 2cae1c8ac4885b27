---- MODULE M ----
EXTENDS Integers, Sequences, FiniteSets
VARIABLE x
F(a) == a
G(b) == F(b) + 1
ASSUME F(1) = 2
Init == x = 0
Next == x' = (x + 1) % 3
Inv == x < 3
====
