---- MODULE M ----
EXTENDS Integers, Sequences, FiniteSets, TLC
VARIABLE x
Init == IF 1 = 1 THEN x = 1 ELSE x = 2
Next == x' = x
Inv == x = 1
====
