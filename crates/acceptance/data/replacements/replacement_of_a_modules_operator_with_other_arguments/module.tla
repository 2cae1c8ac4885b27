---- MODULE M ----
EXTENDS Integers, Sequences, FiniteSets
VARIABLE x
G(a, b) == a
Init == x = 0
Next == x' = (x + 1) % 3
Inv == x < 3
====
