---- MODULE M ----
EXTENDS Integers
VARIABLES x, y
Init == x = 0 /\ y = 0
Next == \E i \in {1, 2} : (i + x')' = 0
Inv == TRUE
====
