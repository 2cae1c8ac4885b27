---- MODULE M ----
EXTENDS Integers
VARIABLES x, y
Init == x = 0 /\ y = TRUE
Next == LET c == x > 0 => x' = 2
            n == x + 0
        IN  /\ (n = 0 => c)
            /\ x' \in {1, 2}
            /\ n = x
            /\ y' = c
Inv == y
====
