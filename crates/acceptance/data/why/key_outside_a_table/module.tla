---- MODULE Table ----
EXTENDS Naturals
CONSTANT Client, Nobody
VARIABLES lease, owner
Init == lease = [c \in Client |-> 0] /\ owner = Nobody
Grant(c) == owner = Nobody /\ owner' = c /\ lease' = [lease EXCEPT ![c] = @ + 1]
Release == owner # Nobody /\ owner' = Nobody /\ UNCHANGED lease
Next == Release \/ \E c \in Client : Grant(c)
Short == lease[owner] < 3
====
