---- MODULE M ----
EXTENDS Integers, Sequences, FiniteSets, TLC
VARIABLE x
ASSUME IsFiniteSet({1}) /\ Cardinality({1, 1, 2}) = 2 /\ Cardinality({}) = 0
Init == x = 0
Next == x' = (x + 1) % 3
Inv == x < 3
====
