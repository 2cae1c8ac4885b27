---- MODULE Lock ----
EXTENDS Naturals
CONSTANT Procs
VARIABLE pc
Init == pc = [p \in Procs |-> "idle"]
Try(p) == /\ pc[p] = "idle"
          /\ pc' = [pc EXCEPT ![p] = "waiting"]
Enter(p) == /\ pc[p] = "waiting"
            /\ pc' = [pc EXCEPT ![p] = "critical"]
Exit(p) == /\ pc[p] = "critical"
           /\ pc' = [pc EXCEPT ![p] = "idle"]
Next == \E p \in Procs : Try(p) \/ Enter(p) \/ Exit(p)
Mutex == \A p, q \in Procs : p # q => ~(pc[p] = "critical" /\ pc[q] = "critical")
====
