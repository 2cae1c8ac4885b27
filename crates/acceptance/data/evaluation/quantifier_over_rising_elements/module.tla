---- MODULE M ----
EXTENDS Integers, Sequences, FiniteSets, TLC
VARIABLE x
ASSUME \E v \in {1, 0} : 1 \div v = 1
Init == x = 0
Next == x' = (x + 1) % 3
Inv == x < 3
====
