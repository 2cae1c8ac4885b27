---- MODULE M ----
EXTENDS Integers
VARIABLE x
Init == x = 0
Next == x' = (x + 1) % 3
Inv == x < 3
Weak == WF_x(Next)
Each == \A p \in 1..2 : Weak
Spec == Init /\ [][Next]_x /\ Each
====
