---- MODULE M ----
EXTENDS Integers, Sequences, FiniteSets, TLC
VARIABLE x
ASSUME \A v, w \in 1..3 : v + w = w + v
Init == x = 0
Next == x' = (x + 1) % 3
Inv == x < 3
====
