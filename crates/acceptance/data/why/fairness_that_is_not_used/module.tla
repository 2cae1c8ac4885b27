---- MODULE Clock ----
EXTENDS Naturals
VARIABLE hour
Init == hour = 1
Next == hour' = (hour % 12) + 1
Spec == Init /\ [][Next]_hour
FairSpec == Spec /\ WF_hour(Next)
TypeOK == hour \in 1..12
====
