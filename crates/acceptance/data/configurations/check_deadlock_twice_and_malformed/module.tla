---- MODULE M ----
EXTENDS Integers
VARIABLE x
A == 1
Init == x = 0
Next == x' = (x + 1) % 3
Inv == x < 3
====
