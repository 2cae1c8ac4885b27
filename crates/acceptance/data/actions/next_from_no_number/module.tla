---- MODULE M ----
EXTENDS Integers
VARIABLE x
Init == x = 0
Next == x' \in 2..1
====
