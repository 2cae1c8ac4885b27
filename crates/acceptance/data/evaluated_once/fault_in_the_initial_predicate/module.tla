---- MODULE M ----
EXTENDS Integers
VARIABLE x
Init == /\ x \in 0..2
        /\ LET n == 4 \div (x - 1)
           IN  x < 1 \/ n + n > 0
Next == x' = x
Inv == x < 3
====
