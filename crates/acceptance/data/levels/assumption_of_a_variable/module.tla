---- MODULE M ----
EXTENDS Integers
VARIABLE x
ASSUME x = 0
Init == x = 0
Next == x' = (x + 1) % 3
Inv == x < 3
====
