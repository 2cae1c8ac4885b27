---- MODULE M ----
EXTENDS Integers
VARIABLE x
ASSUME IF TRUE ELSE TRUE
Init == x = 0
Next == x' = (x + 1) % 3
Inv == x < 3
====
