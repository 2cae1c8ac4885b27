---- MODULE M ----
EXTENDS Integers
VARIABLE x
A(y, - _) == y
Init == x = 0
Next == x' = (x + 1) % 3
Inv == x < 3
====
