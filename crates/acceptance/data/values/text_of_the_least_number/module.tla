---- MODULE M ----
EXTENDS Integers, Sequences, TLC
VARIABLE x
Init == x = -9223372036854775807 - 1
Next == x' = x /\ FALSE
====
