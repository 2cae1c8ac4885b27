---- MODULE M ----
EXTENDS Integers
VARIABLE x
Two == 2
Three == 3
ASSUME Two = 3
Init == x = 0
Next == x' = (x + 1) % 3
Inv == x < 3
====
