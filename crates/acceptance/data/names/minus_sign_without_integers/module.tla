---- MODULE M ----
EXTENDS Naturals
VARIABLE x
ASSUME - 1 < 0
Init == x = 0
Next == x' = (x + 1) % 3
Inv == x < 3
====
