---- MODULE M ----
EXTENDS Integers, Sequences, FiniteSets, TLC
VARIABLE x
ASSUME (CASE 1 -> 1 [] OTHER -> 3) = 3
Init == x = 0
Next == x' = (x + 1) % 3
Inv == x < 3
====
