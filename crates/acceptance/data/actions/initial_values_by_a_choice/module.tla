---- MODULE M ----
EXTENDS Integers, Sequences, FiniteSets, TLC
VARIABLE x
Init == \E v \in {1, 2} : x = v * 10
Next == x' = x
Inv == x # 20
====
