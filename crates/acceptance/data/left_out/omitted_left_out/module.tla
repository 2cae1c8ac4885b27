---- MODULE M ----
EXTENDS Integers
VARIABLE x
THEOREM TRUE OMITTED
Init == x = 0
Next == x' = (x + 1) % 3
Inv == x < 3
====
