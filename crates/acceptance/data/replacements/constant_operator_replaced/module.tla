---- MODULE M ----
EXTENDS Integers
VARIABLE x
CONSTANT F(_)
Double(v) == v * 2
ASSUME F(2) = 4
Init == x = 0
Next == x' = (x + 1) % 3
Inv == x < 3
====
