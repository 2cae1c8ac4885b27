---- MODULE M ----
EXTENDS Integers, Sequences, FiniteSets, TLC
VARIABLE x
ASSUME Head(<< >>) = 1
Init == x = 0
Next == x' = (x + 1) % 3
Inv == x < 3
====
