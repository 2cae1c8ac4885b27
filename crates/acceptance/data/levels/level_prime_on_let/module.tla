---- MODULE M ----
EXTENDS Integers
VARIABLES x, y
Init == x = 0 /\ y = 0
Next == (LET a == x' IN a + 1)' = 0
Inv == TRUE
====
