---- MODULE M ----
EXTENDS Integers, Sequences, FiniteSets, TLC
VARIABLE x
ASSUME (2 \in {1} \ {1 \div 0}) = FALSE
Init == x = 0
Next == x' = (x + 1) % 3
Inv == x < 3
====
