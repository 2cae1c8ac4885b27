---- MODULE M ----
EXTENDS Integers
VARIABLES x, y
Init == x = 0 /\ y = 0
Next == UNCHANGED <<x, 1 + y'>>
Inv == TRUE
====
