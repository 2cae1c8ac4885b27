---- MODULE M ----
EXTENDS Integers, Sequences, FiniteSets, TLC
VARIABLE x
Init == x \in 1..3
Next == x # 2 /\ x' = 1 \div (x - 1)
====
