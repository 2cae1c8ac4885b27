---- MODULE M ----
EXTENDS Integers, Sequences, FiniteSets, TLC
VARIABLE x
ASSUME (-7) % 3 = 2 /\ (-7) \div 3 = -3
Init == x = 0
Next == x' = (x + 1) % 3
Inv == x < 3
====
