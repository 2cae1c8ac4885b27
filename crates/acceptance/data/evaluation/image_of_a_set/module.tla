---- MODULE M ----
EXTENDS Integers, Sequences, FiniteSets, TLC
VARIABLE x
ASSUME {v * v : v \in -2..2} = {0, 1, 4}
Init == x = 0
Next == x' = (x + 1) % 3
Inv == x < 3
====
