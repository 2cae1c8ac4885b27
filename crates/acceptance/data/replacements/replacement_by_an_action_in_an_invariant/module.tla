---- MODULE M ----
EXTENDS Integers, Sequences, FiniteSets
VARIABLE x
Moves == x' = x
Init == x = 0
Next == x' = (x + 1) % 3
Inv == x < 3
====
