---- MODULE M ----
EXTENDS Integers
VARIABLE x
Init == x = 0
Next == (x' = 1 \/ x' = 0) /\ ((1 \div x' = 1) /\ (1 \div 0 = 1))
====
