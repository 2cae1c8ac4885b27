---- MODULE Worker ----
EXTENDS Naturals
VARIABLES jobs, running, log
Init == jobs = {1, 2} /\ running = {} /\ log = 0
Start ==
    \E j \in jobs :
        /\ jobs' = jobs \ {j}
        /\ running' = running \cup {j}
        /\ UNCHANGED log
End ==
    /\ log < 9
    /\ \E j \in running : running' = running \ {j}
    /\ log' = log + 1
    /\ UNCHANGED jobs
Write == log' \in {n \in 1..2 : n > log + 1} /\ UNCHANGED <<jobs, running>>
Next == Start \/ End \/ Write
====
