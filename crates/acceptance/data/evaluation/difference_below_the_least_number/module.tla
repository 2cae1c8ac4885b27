---- MODULE M ----
EXTENDS Integers, Sequences, FiniteSets, TLC
VARIABLE x
ASSUME -9223372036854775807 - 2 = 0
Init == x = 0
Next == x' = (x + 1) % 3
Inv == x < 3
====
