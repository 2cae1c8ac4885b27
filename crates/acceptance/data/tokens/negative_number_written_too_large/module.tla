---- MODULE M ----
EXTENDS Integers
VARIABLE x
ASSUME -9223372036854775808 < 0
Init == x = 0
Next == x' = (x + 1) % 3
Inv == x < 3
====
