---- MODULE M ----
EXTENDS Integers
VARIABLES x, y
CONSTANT c
Op == 1 + x'
Init == x = 0 /\ y = 0
Next == x' = c'
Inv == TRUE
====
