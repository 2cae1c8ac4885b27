---- MODULE M ----
EXTENDS Integers, Sequences, FiniteSets, TLC
VARIABLE x
ASSUME <<3, 4>> \in [1..2 -> Nat] /\ <<3>> \notin [1..2 -> Nat]
Init == x = 0
Next == x' = (x + 1) % 3
Inv == x < 3
====
