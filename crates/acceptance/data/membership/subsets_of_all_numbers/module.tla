---- MODULE M ----
EXTENDS Integers, Sequences, FiniteSets, TLC
VARIABLE x
ASSUME {1, 2} \in SUBSET Nat /\ {-1} \notin SUBSET Nat
Init == x = 0
Next == x' = (x + 1) % 3
Inv == x < 3
====
