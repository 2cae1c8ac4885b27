---- MODULE M ----
EXTENDS Integers
VARIABLES x, y
Init == x = 0 /\ y = 0
Next == LET a == x' b == a' IN b = 0
Inv == TRUE
====
