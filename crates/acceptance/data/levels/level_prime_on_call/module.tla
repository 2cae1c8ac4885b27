---- MODULE M ----
EXTENDS Integers
VARIABLES x, y
F(a) == a + 1
Init == x = 0 /\ y = 0
Next == F(x')' = 0
Inv == TRUE
====
