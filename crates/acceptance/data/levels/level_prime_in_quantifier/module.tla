---- MODULE M ----
EXTENDS Integers
VARIABLES x, y
Init == x = 0 /\ y = 0
Next == \E i \in {1} : (\A j \in {x'} : j = i)' 
Inv == TRUE
====
