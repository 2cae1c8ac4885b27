---- MODULE M ----
EXTENDS Integers, Sequences, FiniteSets
VARIABLE x
F(a, b) == a + b
G(a, b) == a * b
ASSUME F(2, 5) = 10 /\ G(2, 5) = 10
Init == x = 0
Next == x' = (x + 1) % 3
Inv == x < 3
====
