---- MODULE M ----
EXTENDS Integers
VARIABLES x, y
ASSUME (y + x'')' = 0
Init == x = 0 /\ y = 0
Next == x' = x /\ y' = y
Inv == TRUE
====
