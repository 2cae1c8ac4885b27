---- MODULE M ----
EXTENDS Integers, Sequences, FiniteSets, TLC
VARIABLE x
A(v) == LET v == 1 IN v
Init == x = 0
Next == x' = (x + 1) % 3
Inv == x < 3
====
