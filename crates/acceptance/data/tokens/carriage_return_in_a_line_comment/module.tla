---- MODULE M ----
EXTENDS Integers
VARIABLE x
\* a comment ASSUME ?
Init == x = 0
Next == x' = (x + 1) % 3
Inv == x < 3
====
