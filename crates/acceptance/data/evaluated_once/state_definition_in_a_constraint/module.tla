---- MODULE M ----
EXTENDS Integers
VARIABLES x, y
Gap == IF x > y THEN x - y ELSE y - x
Init == x = 0 /\ y = 0
Next == x' \in 0..2 /\ y' = x /\ Gap < 2
Con == Gap < 2
Inv == Gap = 2 => x = 2
====
