---- MODULE M ----
EXTENDS Integers
CONSTANT N
VARIABLE x
ASSUME N \in Nat
ASSUME N > 3
Init == x = 0
Next == x' = (x + 1) % N
====
