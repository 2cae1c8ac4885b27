---- MODULE M ----
EXTENDS Integers
VARIABLE x
Init == x = 0
Next == x' = x + 1
Inv == x < 9
A == IF x < 2 THEN TRUE ELSE x
====
