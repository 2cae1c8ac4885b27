---- MODULE M ----
EXTENDS Integers
VARIABLE x
Parts == x = 0 /\ [][x' = 1 - x]_x
Safe == Parts
Spec == Safe /\ WF_x(x' = x)
====
