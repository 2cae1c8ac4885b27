---- MODULE M ----
EXTENDS Integers
VARIABLE x
ASSUME (CHOOSE v \in {1, 2 : v = 1) = 1
Init == x = 0
Next == x' = (x + 1) % 3
Inv == x < 3
====
