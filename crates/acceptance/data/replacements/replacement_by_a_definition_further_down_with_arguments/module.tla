---- MODULE M ----
EXTENDS Integers, Sequences, FiniteSets
CONSTANT F(_, _)
VARIABLE x
ASSUME F(5, 2) = 3
Minus(a, b) == a - b
Init == x = 0
Next == x' = (x + 1) % 3
Inv == x < 3
====
