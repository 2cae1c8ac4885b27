---- MODULE M ----
EXTENDS Integers, Sequences, FiniteSets, TLC
VARIABLE x
F == 5
ASSUME [F EXCEPT ![1] = 2] = 1
Init == x = 0
Next == x' = (x + 1) % 3
Inv == x < 3
====
