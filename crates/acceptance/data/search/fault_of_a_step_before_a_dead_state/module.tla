---- MODULE M ----
EXTENDS Integers, Sequences, FiniteSets, TLC
VARIABLE x
Init == x \in 0..3
Next == x # 0 /\ x' = 1 \div (x - 1)
====
