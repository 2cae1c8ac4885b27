---- MODULE M ----
EXTENDS Integers, Sequences, FiniteSets
VARIABLE x
Small == x < 2
Init == x = 0
Next == x' = (x + 1) % 3
Inv == x < 3
====
