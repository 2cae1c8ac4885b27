---- MODULE M ----
EXTENDS Integers
VARIABLE x
Init == x = 0
Next == \E x \in 1..2 : x' = x
====
