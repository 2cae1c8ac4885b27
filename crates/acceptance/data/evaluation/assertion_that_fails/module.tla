---- MODULE M ----
EXTENDS Integers, Sequences, FiniteSets, TLC
VARIABLE x
ASSUME Assert(1 = 2, "no") = TRUE
Init == x = 0
Next == x' = (x + 1) % 3
Inv == x < 3
====
