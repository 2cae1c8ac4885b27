---- MODULE M ----
EXTENDS Integers
VARIABLE x
Any == x = 0 \/ <>(x = 1)
Safe == Any
Spec == Safe /\ [][x' = x]_x
====
