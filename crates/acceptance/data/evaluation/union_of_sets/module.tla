---- MODULE M ----
EXTENDS Integers, Sequences, FiniteSets, TLC
VARIABLE x
ASSUME UNION {{1}, {2, 3}, {}} = {1, 2, 3}
Init == x = 0
Next == x' = (x + 1) % 3
Inv == x < 3
====
