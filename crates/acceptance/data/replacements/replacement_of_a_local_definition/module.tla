---- MODULE M ----
EXTENDS Integers, Sequences, FiniteSets
VARIABLE x
LOCAL F == 1
G == 2
ASSUME F = 2
Init == x = 0
Next == x' = (x + 1) % 3
Inv == x < 3
====
