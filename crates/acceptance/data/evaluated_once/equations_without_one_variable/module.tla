---- MODULE M ----
EXTENDS Integers
VARIABLES x, y, z
Init == x = 0 /\ y = 0 /\ z = 0
Next == LET n == {x, x + 1} \cup {y}
        IN  \/ x = 0 /\ x' = 1 /\ y' = (2 \in n) /\ z' = n
            \/ x = 1 /\ x' = 2 /\ z' = n \cup n
====
