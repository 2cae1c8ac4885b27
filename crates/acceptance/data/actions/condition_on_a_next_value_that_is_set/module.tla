---- MODULE M ----
EXTENDS Integers, Sequences, FiniteSets, TLC
VARIABLE x
Init == x = 0
Next == x' = 1 /\ (IF x' = 1 THEN TRUE ELSE FALSE)
====
