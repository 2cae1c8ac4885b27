---- MODULE M ----
EXTENDS Integers
VARIABLE x
Init == x = 0
Next == x' = (x + 1) % 3
Inv == x < 3
Fair == \A i \in {1} : i
i == WF_x(Next)
Spec == Init /\ [][Next]_x /\ Fair
====
