---- MODULE M ----
EXTENDS Integers, Sequences, FiniteSets, TLC
VARIABLE x
A == [x' = 1]_(x)
Init == x = 0
Next == x' = (x + 1) % 3
Inv == x < 3
====
