---- MODULE M ----
EXTENDS Integers, Sequences, FiniteSets, TLC
VARIABLE x
ASSUME [a |-> 1, b |-> "x"] \in [a : Nat, b : STRING] /\ [a |-> 1] \notin [a : Nat, b : Nat]
Init == x = 0
Next == x' = (x + 1) % 3
Inv == x < 3
====
