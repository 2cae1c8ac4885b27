---- MODULE M ----
EXTENDS Integers
VARIABLE x
CONSTANT C
Init == x = 0
Next == x' = (x + 1) % 3
Inv == x < 3
Spec == C /\ Init /\ [][Next]_x
====
