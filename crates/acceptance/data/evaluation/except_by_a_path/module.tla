---- MODULE M ----
EXTENDS Integers, Sequences, FiniteSets, TLC
VARIABLE x
ASSUME [<<[a |-> 1], [a |-> 2]>> EXCEPT ![2].a = 7] = <<[a |-> 1], [a |-> 7]>>
Init == x = 0
Next == x' = (x + 1) % 3
Inv == x < 3
====
