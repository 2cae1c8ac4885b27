---- MODULE M ----
EXTENDS Integers, Sequences, FiniteSets, TLC
VARIABLE x
ASSUME IF 1 THEN TRUE ELSE TRUE
Init == x = 0
Next == x' = (x + 1) % 3
Inv == x < 3
====
