---- MODULE M ----
EXTENDS Integers, Sequences, FiniteSets, TLC
VARIABLE x
Init == x = 0
Next == \E v, w \in {1, 2} : x' = 10 * v + w
Inv == x # 21
====
