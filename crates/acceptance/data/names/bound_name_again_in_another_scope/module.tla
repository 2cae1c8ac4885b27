---- MODULE M ----
EXTENDS Integers
VARIABLE x
ASSUME (\A v \in {1} : v = 1) /\ (\A v \in {2} : v = 2)
Init == x = 0
Next == x' = (x + 1) % 3
Inv == x < 3
====
