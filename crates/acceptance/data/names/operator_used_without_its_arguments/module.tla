---- MODULE M ----
EXTENDS Integers
VARIABLE x
A(v) == v
B == A
Init == x = 0
Next == x' = (x + 1) % 3
Inv == x < 3
====
