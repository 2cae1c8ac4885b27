---- MODULE M ----
EXTENDS Integers
VARIABLE x
Init == x = 0
Next == x' = x
Inv == /\ \/ x = 1
          \/ x = 0
       /\ \/ x = 0
          \/ x = 2
====
