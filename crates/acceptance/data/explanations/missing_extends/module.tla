---- MODULE M ----
EXTENDS Integers
VARIABLE x
Init == x = {}
Next == x' = x \cup {1}
Small == Cardinality(x) < 3
====
