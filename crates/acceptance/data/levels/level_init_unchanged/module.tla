---- MODULE M ----
EXTENDS Integers
VARIABLES x, y
Init == x = 0 /\ UNCHANGED y
Next == x' = x /\ y' = y
Inv == TRUE
====
