---- MODULE M ----
EXTENDS Integers, Sequences, FiniteSets
VARIABLE x
Small == 0..1
Init == x = 0
Next == x' = (x + 1) % 3
Inv == x \in Nat
====
