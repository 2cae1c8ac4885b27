---- MODULE M ----
EXTENDS Integers, Sequences, FiniteSets, TLC
VARIABLE x
ASSUME [a |-> 1, b |-> 2].b = 2 /\ DOMAIN [a |-> 1] = {"a"}
Init == x = 0
Next == x' = (x + 1) % 3
Inv == x < 3
====
