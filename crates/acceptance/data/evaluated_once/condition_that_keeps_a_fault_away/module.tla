---- MODULE M ----
EXTENDS Integers
VARIABLES x, y
Init == x = 3 /\ y = 0
Next == LET q == 6 \div x
        IN  /\ x > 0
            /\ q < 7
            /\ x' = x - 1
            /\ y' = q + q
====
