---- MODULE M ----
EXTENDS Integers
VARIABLES x, y
F(a) == (a + 1)' = 0
Init == x = 0 /\ y = 0
Next == F(x')
Inv == TRUE
====
