---- MODULE M ----
EXTENDS Integers
VARIABLES x, y
ASSUME x = 0
Init == x' = 0
Next == x' = x /\ y' = y
Inv == TRUE
====
