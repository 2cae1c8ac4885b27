---- MODULE Clock ----
EXTENDS Naturals
VARIABLE hour
vars == <<hour>>
Init == hour = 1
Next == hour' = (hour % 12) + 1
Fairness == WF_vars(Next)
Spec == Init /\ [][Next]_vars /\ Fairness
TypeOK == hour \in 1..12
====
