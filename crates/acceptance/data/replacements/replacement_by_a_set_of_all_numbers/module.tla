---- MODULE M ----
EXTENDS Integers, Sequences, FiniteSets
CONSTANT S
VARIABLE x
ASSUME 7 \in S
ASSUME S = {}
Init == x = 0
Next == x' = (x + 1) % 3
Inv == x < 3
====
