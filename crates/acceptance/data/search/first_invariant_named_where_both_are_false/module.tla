---- MODULE M ----
EXTENDS Integers, Sequences, FiniteSets, TLC
VARIABLE x
Init == x \in 0..3
Next == x' = x
Inv == x # 2
Low == x # 2
====
