---- MODULE M ----
EXTENDS Integers, Sequences, FiniteSets, TLC
VARIABLE x
ASSUME (CHOOSE v \in {0, 1, 2} : v = 0 \/ 1 \div (v - 1) = 1) = 0
Init == x = 0
Next == x' = (x + 1) % 3
Inv == x < 3
====
