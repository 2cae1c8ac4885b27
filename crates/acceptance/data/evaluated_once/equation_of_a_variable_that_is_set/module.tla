---- MODULE M ----
EXTENDS Integers
VARIABLES x, y
Init == x = 0 /\ y = 0
Next == /\ x' \in 0..5
        /\ LET n == (x * x + 2) % 6
           IN  n < 5 /\ x' = n /\ y' = n + n /\ y' = n * 2
Inv == y < 8
====
