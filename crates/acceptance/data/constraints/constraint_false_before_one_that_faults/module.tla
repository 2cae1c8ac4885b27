---- MODULE M ----
EXTENDS Integers
VARIABLE x
Init == x = 0
Next == x' = x + 1
Inv == x < 9
A == x < 3
B == 2 \div (3 - x) > -1
====
