---- MODULE M ----
EXTENDS Integers
VARIABLE x
Init == x = 0 /\ 5
Spec == Init /\ [][x' = x]_x
====
