---- MODULE M ----
EXTENDS Integers
VARIABLE x
CONSTANT p
Init == x = p
Next == x' \in {p, 1, 2} /\ x' # x
A == x # p
====
