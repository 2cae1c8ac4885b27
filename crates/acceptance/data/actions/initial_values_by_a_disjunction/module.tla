---- MODULE M ----
EXTENDS Integers, Sequences, FiniteSets, TLC
VARIABLE x
Init == x = 2 \/ x = 1
Next == x' = x
Inv == x = 2
====
