---- MODULE M ----
EXTENDS Integers
VARIABLES x, y
Init == x = 0
Next == x' = (x + 1) % 3
Inv == x < 3
Spec == Init /\ y = 1 /\ [][Next /\ UNCHANGED y]_<<x, <<y>>>>
====
