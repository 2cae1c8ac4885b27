---- MODULE M ----
EXTENDS Integers
VARIABLES x, y
Init == y = 0 /\ (x + 1)' = 0
Next == x' = x /\ y' = y
Inv == TRUE
====
