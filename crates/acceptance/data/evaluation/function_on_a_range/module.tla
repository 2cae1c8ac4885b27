---- MODULE M ----
EXTENDS Integers, Sequences, FiniteSets, TLC
VARIABLE x
ASSUME [v \in 1..3 |-> v * v] = <<1, 4, 9>>
Init == x = 0
Next == x' = (x + 1) % 3
Inv == x < 3
====
