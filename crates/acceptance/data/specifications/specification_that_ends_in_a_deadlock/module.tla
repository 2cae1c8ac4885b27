---- MODULE M ----
EXTENDS Integers
VARIABLE x
Init == x = 0
Next == x < 1 /\ x' = x + 1
Inv == x < 3
Spec == Init /\ [][Next]_x /\ WF_x(Next)
====
