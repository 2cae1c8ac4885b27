---- MODULE M ----
EXTENDS Integers, Sequences, FiniteSets, TLC
VARIABLE x
Two == 1 + 1
ASSUME Two + Two = 4
Init == x = 0
Next == x' = (x + 1) % 3
Inv == x < 3
====
