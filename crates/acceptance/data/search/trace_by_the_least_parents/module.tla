---- MODULE M ----
EXTENDS Integers, Sequences, FiniteSets, TLC
VARIABLE x
Init == x = 0
Next == \/ x = 0 /\ x' \in {1, 2}
        \/ x = 1 /\ x' \in {3, 4}
        \/ x = 2 /\ x' \in {3, 4}
        \/ x > 2 /\ x' = 5
Inv == x # 5
====
