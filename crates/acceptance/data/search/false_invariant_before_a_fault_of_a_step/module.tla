---- MODULE M ----
EXTENDS Integers, Sequences, FiniteSets, TLC
VARIABLE x
Init == x \in 0..3
Next == x' = 1 \div x
Inv == x # 3
====
