---- MODULE Election ----
\* Servers stand for a term, and others give them their vote. Each knows its term, its vote and its log.
EXTENDS Naturals, Sequences
CONSTANT Server
VARIABLES server, votes
Init == /\ server = [s \in Server |-> [term |-> 1, vote |-> "none",
                                       log |-> <<[term |-> 1, value |-> "x"]>>]]
        /\ votes = [s \in Server |-> {}]
Stand(s) ==
    /\ server[s].term = 1
    /\ server' = [server EXCEPT ![s].term = 2, ![s].vote = "self", ![s].log[1].value = "y"]
    /\ votes' = [votes EXCEPT ![s] = @ \cup {s}]
Grant(s, t) ==
    /\ server[s].term > server[t].term
    /\ server' = [server EXCEPT ![t].term = server[s].term, ![t].vote = "given"]
    /\ votes' = [votes EXCEPT ![s] = @ \cup {t}]
Next == \E s \in Server : Stand(s) \/ \E t \in Server : Grant(s, t)
NoLeader == \A s \in Server : votes[s] # Server
====
