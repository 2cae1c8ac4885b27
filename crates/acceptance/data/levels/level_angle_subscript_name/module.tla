---- MODULE M ----
EXTENDS Integers
VARIABLES x, y
vars == <<y, x'>>
Init == x = 0 /\ y = 0
Next == <<x' = 0>>_vars
Inv == TRUE
====
