---- MODULE M ----
EXTENDS Integers, Sequences, FiniteSets, TLC
VARIABLE x
ASSUME IF TRUE THEN TRUE ELSE 1 \div 0 = 1
Init == x = 0
Next == x' = (x + 1) % 3
Inv == x < 3
====
