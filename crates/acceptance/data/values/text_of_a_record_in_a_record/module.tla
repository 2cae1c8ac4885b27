---- MODULE M ----
EXTENDS Integers, Sequences, TLC
VARIABLE x
Init == x = [b |-> [a |-> 1], a |-> {}]
Next == x' = x /\ FALSE
====
