---- MODULE M ----
EXTENDS Integers
VARIABLE x
Init == x = 0
Next == LET n == 6 \div (2 - x)
        IN  \/ x < 2 /\ x' = x + 1 /\ n > 2
            \/ x > 2 /\ x' = n
====
