---- MODULE M ----
EXTENDS Integers, Sequences, FiniteSets, TLC
VARIABLE x
ASSUME {1, 2, 2, 3} = {3, 2, 1} /\ {} = {v \in {1} : v = 2}
Init == x = 0
Next == x' = (x + 1) % 3
Inv == x < 3
====
