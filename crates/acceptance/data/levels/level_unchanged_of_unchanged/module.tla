---- MODULE M ----
EXTENDS Integers
VARIABLES x, y
Init == x = 0 /\ y = 0
Next == UNCHANGED (UNCHANGED y)
Inv == TRUE
====
