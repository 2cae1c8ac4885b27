---- MODULE M ----
EXTENDS Integers, Sequences, FiniteSets, TLC
VARIABLES z, y, x
Init == z = 0
Next == TRUE
====
