---- MODULE M ----
EXTENDS Integers, Sequences, FiniteSets, TLC
VARIABLE x
Init == x = 1
Next == x' \in {(x * 2) % 7, (x + 3) % 7}
====
