---- MODULE M ----
EXTENDS Integers, Sequences, FiniteSets
CONSTANT F(_, _)
VARIABLE x
G(a) == a
Init == x = 0
Next == x' = (x + 1) % 3
Inv == x < 3
====
