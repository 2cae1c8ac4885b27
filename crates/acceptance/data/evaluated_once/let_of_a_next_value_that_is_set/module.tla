---- MODULE M ----
EXTENDS Integers
VARIABLES x, y, z
Init == x = 0 /\ y = 0 /\ z = TRUE
Next == /\ x' \in {x + 1, x + 2}
        /\ LET d == x' - x
           IN  y' = d * 10 + d /\ z' = (d * 11 = y')
Inv == z /\ (x = 4 => y = 11)
====
