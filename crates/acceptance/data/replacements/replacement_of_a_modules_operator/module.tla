---- MODULE M ----
EXTENDS Integers, Sequences, FiniteSets
VARIABLE x
Count(s) == 7
ASSUME Len(<<1>>) = 7
Init == x = 0
Next == x' = (x + 1) % 3
Inv == x < 3
====
