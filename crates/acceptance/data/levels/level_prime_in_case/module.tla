---- MODULE M ----
EXTENDS Integers
VARIABLES x, y
Init == x = 0 /\ y = 0
Next == CASE x = 0 -> x' = 1 [] OTHER -> (1 + x')' = 0
Inv == TRUE
====
