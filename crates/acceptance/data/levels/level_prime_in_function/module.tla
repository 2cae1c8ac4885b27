---- MODULE M ----
EXTENDS Integers
VARIABLES x, y
f[i \in {x'}] == i
Init == x = 0 /\ y = 0
Next == f' = x
Inv == TRUE
====
