---- MODULE M ----
EXTENDS Integers, Sequences, FiniteSets, TLC
VARIABLE x
ASSUME {v \in 1..9 : v % 2 = 0} = {2, 4, 6, 8}
Init == x = 0
Next == x' = (x + 1) % 3
Inv == x < 3
====
