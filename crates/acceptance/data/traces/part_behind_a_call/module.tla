---- MODULE Voting ----
\* A server answers requests for its vote. What it sends is put on the network by Send.
EXTENDS Naturals
VARIABLES term, msgs, log
Send(m) == msgs' = msgs \cup {m}
Init == term = 1 /\ msgs = {} /\ log = 0
Request == /\ msgs = {}
           /\ Send([type |-> "request", term |-> 2])
           /\ UNCHANGED <<term, log>>
HandleRequest(m) == /\ m.type = "request"
                    /\ term' = m.term
                    /\ Send([type |-> "reply", term |-> m.term])
HandleReply(m) == /\ m.type = "reply"
                  /\ m.term = term
                  /\ msgs' = msgs \ {m}
                  /\ term' = term
Receive == \E m \in msgs :
    /\ m.term >= term
    /\ \/ HandleRequest(m)
       \/ HandleReply(m)
    /\ UNCHANGED log
Write == log' = log + 1 /\ UNCHANGED <<term, msgs>>
Work == /\ term = 2
        /\ \A m \in msgs : m.type = "request"
        /\ Write
Next == Request \/ Receive \/ Work
Empty == log = 0
====
