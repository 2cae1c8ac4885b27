---- MODULE M ----
EXTENDS Integers
VARIABLE x
Init == x = 0
Next == x'' = 0
Inv == x < 3
Spec == Init /\ [][Next]_x
====
