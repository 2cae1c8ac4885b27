---- MODULE M ----
EXTENDS Integers, Sequences, FiniteSets
VARIABLE x
Mine(p, m) == p
Init == x = 0
Next == x' = (x + 1) % 3
Inv == x < 3
====
