---- MODULE M ----
EXTENDS Integers
VARIABLE x
Five == 5
Init == Five
Spec == x = 0 /\ Init /\ [][x' = x]_x
====
