---- MODULE M ----
EXTENDS Integers
VARIABLES x, y
Init == x = 0 /\ \E i \in {1} : y = i'
Next == x' = x /\ y' = y
Inv == TRUE
====
