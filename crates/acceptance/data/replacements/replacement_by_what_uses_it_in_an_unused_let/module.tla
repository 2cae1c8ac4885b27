---- MODULE M ----
EXTENDS Integers, Sequences, FiniteSets
CONSTANT A
VARIABLE x
B == LET c == A IN 1
Init == x = 0
Next == x' = (x + 1) % 3
Inv == x < 3
====
