---- MODULE M ----
EXTENDS Integers, FiniteSets
CONSTANTS Server, None
VARIABLE vote
Quorum == {q \in SUBSET Server : Cardinality(q) * 2 > Cardinality(Server)}
Votes == [Server -> Server \cup {None}]
Init == vote = [s \in Server |-> None]
Next == \E s, t \in Server : vote[s] = None /\ vote' = [vote EXCEPT ![s] = t]
Leader(t) == {s \in Server : vote[s] = t} \in Quorum
One == vote \in Votes /\ \A t, u \in Server : Leader(t) /\ Leader(u) => t = u
Inv == \A t \in Server : ~ Leader(t)
====
