---- MODULE M ----
EXTENDS Integers, Sequences, FiniteSets, TLC
VARIABLE x
Add(a, b) == a + b
ASSUME Add(Add(1, 2), 3) = 6
Init == x = 0
Next == x' = (x + 1) % 3
Inv == x < 3
====
