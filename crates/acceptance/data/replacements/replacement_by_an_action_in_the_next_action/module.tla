---- MODULE M ----
EXTENDS Integers, Sequences, FiniteSets
CONSTANT Move
VARIABLE x
Up == x' = (x + 1) % 3
Init == x = 0
Next == Move
Inv == x < 3
====
