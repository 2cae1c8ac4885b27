---- MODULE M ----
EXTENDS Integers
VARIABLES x, y
Init == x = 0 /\ y = 0
Next == x' = x /\ y' = y
Inv == LET a == x + 1 IN a' = 0
====
