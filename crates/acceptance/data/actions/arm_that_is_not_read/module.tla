---- MODULE M ----
EXTENDS Integers, Sequences, FiniteSets, TLC
VARIABLE x
Init == x = 0
Next == IF x = 0 THEN x' = 0 ELSE x' = 1 \div 0
====
