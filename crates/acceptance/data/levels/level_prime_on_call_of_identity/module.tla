---- MODULE M ----
EXTENDS Integers
VARIABLES x, y
F(a) == a
Init == x = 0 /\ y = 0
Next == F(1 + x')' = 0
Inv == TRUE
====
