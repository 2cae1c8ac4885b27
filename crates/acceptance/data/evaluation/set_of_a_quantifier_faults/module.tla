---- MODULE M ----
EXTENDS Integers, Sequences, FiniteSets, TLC
VARIABLE x
ASSUME \E v \in {1 \div 0} : TRUE
Init == x = 0
Next == x' = (x + 1) % 3
Inv == x < 3
====
