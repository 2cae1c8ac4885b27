---- MODULE M ----
EXTENDS Integers
VARIABLE x
Init == x = 0
Step(p) == x' = (x + p) % 3
Next == \E p \in 1..2 : Step(p)
Inv == x < 3
Fair == \A p \in 1..2 : WF_x(Step(p)) /\ SF_x(Step(p))
Spec == Init /\ [][Next]_x /\ Fair
====
