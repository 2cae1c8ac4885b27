---- MODULE M ----
EXTENDS Integers
VARIABLE x
Init == x = 0
Next == x' = (x + 1) % 3
Inv == x < 3
vars == <<x>>
Fair == WF_vars(Next) /\ SF_x(Next)
Spec == Init /\ [][Next]_vars /\ Fair /\ (\A v \in {1} : WF_x(Next))
====
