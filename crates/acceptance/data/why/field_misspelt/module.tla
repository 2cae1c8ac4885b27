---- MODULE Sessions ----
EXTENDS Naturals
VARIABLES sessions, clock
Init == clock = 0 /\ sessions = {[user |-> "ann", expires |-> 2]}
Tick == clock' = clock + 1 /\ UNCHANGED sessions
Drop == \E s \in sessions : s.expire < clock /\ sessions' = sessions \ {s} /\ UNCHANGED clock
Next == Tick \/ Drop
====
