---- MODULE M ----
EXTENDS Integers
VARIABLES x, y
Init == x = 0
Next == x' = (x + 1) % 3
Inv == x < 3
Spec == Init /\ y = 0 /\ [][Next /\ UNCHANGED y]_x
====
