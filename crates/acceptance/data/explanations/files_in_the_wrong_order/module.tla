---- MODULE Lock ----
EXTENDS Integers
VARIABLE owner
Init == owner = 0
Next == owner' = 1 - owner
Inv == owner < 2
====
