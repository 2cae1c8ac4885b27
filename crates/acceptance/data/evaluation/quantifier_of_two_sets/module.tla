---- MODULE M ----
EXTENDS Integers, Sequences, FiniteSets, TLC
VARIABLE x
ASSUME \A v \in {1, 2}, w \in {"a"} : v # w
Init == x = 0
Next == x' = (x + 1) % 3
Inv == x < 3
====
