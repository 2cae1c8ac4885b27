---- MODULE M ----
EXTENDS Integers
VARIABLES x, y
F(a) == a' = 0
Init == x = 0 /\ y = 0
Next == x' = x /\ y' = y
Inv == F(x + 1)
====
