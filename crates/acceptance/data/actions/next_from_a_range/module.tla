---- MODULE M ----
EXTENDS Integers
VARIABLE x
Init == x = 0
Next == x = 0 /\ x' \in 1..3
Inv == x < 3
====
