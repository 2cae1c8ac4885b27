---- MODULE M ----
EXTENDS Integers, Sequences, FiniteSets, TLC
VARIABLES y, x
Init == (x = 2 /\ y = 1) \/ (x = 1 /\ y = 2)
Next == UNCHANGED x /\ UNCHANGED y
Inv == x = 0
====
