---- MODULE M ----
EXTENDS Integers, Sequences, FiniteSets, TLC
VARIABLE x
ASSUME <<1, 2, 3>> \in {1} \X {2} \X {3}
Init == x = 0
Next == x' = (x + 1) % 3
Inv == x < 3
====
