---- MODULE M ----
EXTENDS Integers
VARIABLES x, y
Init == x = 0 /\ y = 0
Next == LET n == {x, y}
        IN  /\ x < 2
            /\ IF x = 1 THEN n ELSE n # {}
            /\ x' = x + 1
            /\ y' = IF n = {0} THEN 1 ELSE 0
====
