---- MODULE M ----
EXTENDS Integers, Sequences, FiniteSets
CONSTANT F(_)
VARIABLE x
ASSUME F(<<4, 5>>) = 4
Init == x = 0
Next == x' = (x + 1) % 3
Inv == x < 3
====
