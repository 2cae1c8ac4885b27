---- MODULE M ----
EXTENDS Integers
VARIABLE x
ASSUME (* one
 two
 three *) ?
Init == x = 0
Next == x' = (x + 1) % 3
Inv == x < 3
====
