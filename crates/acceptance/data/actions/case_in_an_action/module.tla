---- MODULE M ----
EXTENDS Integers, Sequences, FiniteSets, TLC
VARIABLE x
Init == x = 0
Next == CASE x = 0 -> x' = 1 [] x = 1 -> x' = 2 [] OTHER -> x' = 0
====
