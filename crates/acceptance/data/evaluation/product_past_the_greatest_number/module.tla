---- MODULE M ----
EXTENDS Integers, Sequences, FiniteSets, TLC
VARIABLE x
ASSUME 4611686018427387904 * 2 = 0
Init == x = 0
Next == x' = (x + 1) % 3
Inv == x < 3
====
