---- MODULE M ----
EXTENDS Integers
VARIABLES x, y
Init == x = 1' /\ y = 0
Next == x' = x /\ y' = y
Inv == TRUE
====
