---- MODULE M ----
EXTENDS Integers, Sequences, FiniteSets, TLC
VARIABLE x
ASSUME LET a == 1
           b(c) == a + c
       IN  b(2) = 3
Init == x = 0
Next == x' = (x + 1) % 3
Inv == x < 3
====
