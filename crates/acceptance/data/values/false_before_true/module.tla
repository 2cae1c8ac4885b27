---- MODULE M ----
EXTENDS Integers, Sequences, TLC
VARIABLE x
Init == x \in {TRUE, FALSE}
Next == x' = x
Inv == x = 7
====
