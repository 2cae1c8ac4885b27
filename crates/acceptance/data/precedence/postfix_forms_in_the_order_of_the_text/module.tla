---- MODULE M ----
EXTENDS Integers, Sequences, FiniteSets, TLC
VARIABLE x
F == <<[a |-> <<7>>]>>
ASSUME F[1].a[1] = 7
Init == x = 0
Next == x' = (x + 1) % 3
Inv == x < 3
====
