---- MODULE M ----
EXTENDS Integers
VARIABLE x
ASSUME 1 \inx 2
Init == x = 0
Next == x' = (x + 1) % 3
Inv == x < 3
====
