---- MODULE M ----
EXTENDS Integers
VARIABLES x, y
Init == x = 0 /\ y = 0
Next == LET n == (x + 3) % 5
            m == (x + 3) % 4
        IN  x' = n + m - m /\ x' = m + n - n /\ y' = n + m
====
