---- MODULE Barrier ----
EXTENDS Naturals
CONSTANT Proc
VARIABLES at, count
Init == at = [p \in Proc |-> 0] /\ count = 0
Arrive(p) ==
    /\ at[p] = 0
    /\ at' = [at EXCEPT ![p] = 1]
    /\ IF count = 1 THEN TRUE ELSE count' = count + 1
Leave(p) == at[p] = 1 /\ at' = [at EXCEPT ![p] = 0] /\ UNCHANGED count
Next == \E p \in Proc : Arrive(p) \/ Leave(p)
====
