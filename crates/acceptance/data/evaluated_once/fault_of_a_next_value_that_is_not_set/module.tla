---- MODULE M ----
EXTENDS Integers
VARIABLES x, y
Init == x = 0 /\ y = 0
Next == LET d == x' + y
        IN  IF x < 1 THEN x' = x + 1 /\ y' = d + d
            ELSE y' = d /\ x' = x + 1
====
