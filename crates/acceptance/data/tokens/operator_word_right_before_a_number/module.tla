---- MODULE M ----
EXTENDS Integers
VARIABLE x
ASSUME 1 \in{1}
Init == x = 0
Next == x' = (x + 1) % 3
Inv == x < 3
====
