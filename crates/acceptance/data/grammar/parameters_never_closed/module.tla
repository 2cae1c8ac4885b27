---- MODULE M ----
EXTENDS Integers
VARIABLE x
Two(a == a
Init == x = 0
Next == x' = (x + 1) % 3
Inv == x < 3
====
