---- MODULE M ----
EXTENDS Integers, FiniteSets
VARIABLE x
Init == x = {}
Next == \E i \in 1..2 : x' = {i}
Inv == LET s == SUBSET (1..30)
       IN  x \in s /\ {3} \in s /\ (x = {2} => Cardinality(s) > 0)
====
