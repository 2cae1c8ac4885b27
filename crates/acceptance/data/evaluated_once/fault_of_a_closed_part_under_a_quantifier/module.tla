---- MODULE M ----
EXTENDS Integers
VARIABLE x
Init == x \in 0..2
Next == x' = x
Inv == \A i \in 1..x : (CHOOSE n \in {1, 2} : n > 2) = i
====
