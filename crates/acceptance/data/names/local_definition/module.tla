---- MODULE M ----
EXTENDS Integers
VARIABLE x
LOCAL Two == 2
ASSUME Two = 2
Init == x = 0
Next == x' = (x + 1) % 3
Inv == x < 3
====
