---- MODULE M ----
EXTENDS Integers
VARIABLE x
Init == x \in 0..4
Next == x' = x + 1
A == x < 0
====
