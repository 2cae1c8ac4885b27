---- MODULE M ----
EXTENDS Integers, Sequences, FiniteSets, TLC
VARIABLES x, y
Init == y = x /\ x = 1
Next == x' = x
====
