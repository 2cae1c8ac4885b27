---- MODULE M ----
EXTENDS Integers, Sequences, FiniteSets, TLC
VARIABLE x
ASSUME 1 \in Nat \ {0} /\ 0 \notin Nat \ {0} /\ -1 \notin Nat
Init == x = 0
Next == x' = (x + 1) % 3
Inv == x < 3
====
