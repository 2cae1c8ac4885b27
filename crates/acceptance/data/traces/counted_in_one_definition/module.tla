---- MODULE M ----
EXTENDS Integers
VARIABLES x
Init == x = 0
Next == \/ x < 2 /\ x' = x + 1
        \/ x = 5 /\ x' = 0
        \/ x = 2 /\ x' = 0
Inv == x < 3
====
