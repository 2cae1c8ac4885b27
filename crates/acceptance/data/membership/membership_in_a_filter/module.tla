---- MODULE M ----
EXTENDS Integers, Sequences, FiniteSets, TLC
VARIABLE x
ASSUME 4 \in {v \in Nat : v % 2 = 0} /\ 3 \notin {v \in Nat : v % 2 = 0}
Init == x = 0
Next == x' = (x + 1) % 3
Inv == x < 3
====
