---- MODULE M ----
EXTENDS Integers
VARIABLE x
Init == x = 0
Next == x' = 1 - x /\ x' \in ((0..1) \cup ((1 \div 0)..3))
Inv == x < 2
====
