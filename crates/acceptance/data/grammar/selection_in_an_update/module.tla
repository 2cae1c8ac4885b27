---- MODULE M ----
EXTENDS Integers, Sequences, FiniteSets, TLC
VARIABLE x
A == [x EXCEPT ![1] = x!y]
Init == x = 0
Next == x' = (x + 1) % 3
Inv == x < 3
====
