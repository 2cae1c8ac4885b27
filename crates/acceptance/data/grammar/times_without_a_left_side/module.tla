---- MODULE M ----
EXTENDS Integers
VARIABLE x
Init == x = \X 1
Next == x' = (x + 1) % 3
Inv == x < 3
====
