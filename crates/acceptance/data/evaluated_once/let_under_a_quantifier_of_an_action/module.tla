---- MODULE M ----
EXTENDS Integers
VARIABLES x, y
Init == x = 1 /\ y = 0
Next == \E i \in 1..3 : LET n == i * x + y
                        IN  x' = n /\ y' = n + i /\ n < 5
Inv == ~ (x = 4 /\ y = 6)
====
