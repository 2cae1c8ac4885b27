---- MODULE M ----
EXTENDS Integers
VARIABLE x
Init == x = 0
Next == x = 0 /\ (x' = 1 \/ x' = 2) /\ x' \in 2..3
Inv == x # 2
====
