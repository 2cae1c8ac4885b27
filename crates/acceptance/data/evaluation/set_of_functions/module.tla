---- MODULE M ----
EXTENDS Integers, Sequences, FiniteSets, TLC
VARIABLE x
ASSUME [{1, 2} -> {0}] = {<<0, 0>>} /\ Cardinality([1..2 -> 1..3]) = 9
Init == x = 0
Next == x' = (x + 1) % 3
Inv == x < 3
====
