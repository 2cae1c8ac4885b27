---- MODULE M ----
EXTENDS Integers
VARIABLE x
Init == x = 0
Next == \/ x < 5 /\ x' = x + 1
        \/ x = 0 /\ x' = 9
        \/ x = 9 /\ x' = 5
Inv == x # 5
A == x # 9
====
