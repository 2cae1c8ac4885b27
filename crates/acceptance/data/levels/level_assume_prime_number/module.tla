---- MODULE M ----
EXTENDS Integers
VARIABLES x, y
ASSUME 1' = 1
Init == x = 0 /\ y = 0
Next == x' = x /\ y' = y
Inv == TRUE
====
