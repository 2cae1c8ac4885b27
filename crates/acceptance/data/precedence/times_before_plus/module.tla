---- MODULE M ----
EXTENDS Integers
VARIABLE x
ASSUME 1 + 2 * 3 = 7 /\ 2 * 3 + 1 = 7
Init == x = 0
Next == x' = (x + 1) % 3
Inv == x < 3
====
