---- MODULE M ----
EXTENDS Integers, Sequences, FiniteSets
VARIABLE x
Other == x = 2
Init == x = 0
Next == x' = (x + 1) % 3
Inv == x < 3
====
