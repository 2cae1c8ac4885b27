---- MODULE M ----
EXTENDS Integers
VARIABLE x
CONSTANT N
ASSUME \A v, w \in N : v = w \/ v # w
Init == x = 0
Next == x' = (x + 1) % 3
Inv == x < 3
====
