---- MODULE M ----
EXTENDS Integers
VARIABLES x, y
Init == x = 0 /\ y = 0
Next == x' \in {x'' : i \in {(1 + y')'}}
Inv == TRUE
====
