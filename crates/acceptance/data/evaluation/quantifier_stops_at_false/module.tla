---- MODULE M ----
EXTENDS Integers, Sequences, FiniteSets, TLC
VARIABLE x
ASSUME (\A v \in {0, 1} : v = 5 /\ 1 \div v = 1) = FALSE
Init == x = 0
Next == x' = (x + 1) % 3
Inv == x < 3
====
