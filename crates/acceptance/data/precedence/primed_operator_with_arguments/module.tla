---- MODULE M ----
EXTENDS Integers, Sequences, FiniteSets, TLC
VARIABLE x
Add(a, b) == a + b
A == Add(x, 1)'
Init == x = 0
Next == x' = (x + 1) % 3
Inv == x < 3
====
