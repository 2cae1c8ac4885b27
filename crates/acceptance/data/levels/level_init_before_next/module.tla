---- MODULE M ----
EXTENDS Integers
VARIABLES x, y
Init == (x + 1)' = 0
Next == x'' = 0
Inv == TRUE
====
