---- MODULE M ----
EXTENDS Integers
VARIABLE x
A == x \cdot x
Init == x = 0
Next == x' = (x + 1) % 3
Inv == x < 3
====
