---- MODULE Raft ----
\* Election by votes, and a log that the leader writes.
EXTENDS Naturals, Sequences, FiniteSets, TLC
CONSTANT Server
VARIABLES s, msgs, log
Nil == "nil"
Init == /\ s = [i \in Server |-> [role |-> "f", term |-> 0, voted |-> Nil, votes |-> {}]]
        /\ msgs = {}
        /\ log = [i \in Server |-> << >>]
Broadcast(m) == msgs' = msgs \cup {m}
Timeout(i) ==
    /\ s[i].role # "l"
    /\ s[i].term < 1
    /\ s' = [s EXCEPT ![i] = [@ EXCEPT !.role = "c", !.term = @ + 1, !.votes = {i}]]
    /\ Broadcast([type |-> "rv", from |-> i, term |-> s[i].term + 1])
    /\ UNCHANGED log
HandleVote(i, m) ==
    /\ m.type = "rv"
    /\ m.from # i
    /\ s[i].term < m.term
    /\ s' = [s EXCEPT ![i].term = m.term, ![i].voted = m.from]
    /\ msgs' = (msgs \ {m}) \cup {[type |-> "vr", to |-> m.from, from |-> i]}
HandleReply(i, m) ==
    /\ m.type = "vr"
    /\ m.to = i
    /\ s' = [s EXCEPT ![i].votes = @ \cup {m.from}]
    /\ msgs' = msgs \ {m}
Receive(i) == \E m \in msgs :
    /\ \/ HandleVote(i, m)
       \/ HandleReply(i, m)
    /\ UNCHANGED log
Become(i) ==
    /\ s[i].role = "c"
    /\ Cardinality(s[i].votes) * 2 > Cardinality(Server)
    /\ s' = [s EXCEPT ![i].role = "l"]
    /\ log' = [log EXCEPT ![i] = Append(@, [term |-> s[i].term, val |-> "noop"])]
    /\ UNCHANGED msgs
Write(i) ==
    /\ s[i].role = "l"
    /\ log' = [log EXCEPT ![i] = Append(@, [term |-> s[i].term, val |-> "say \"x\""]), ![i][1].val = "done"]
    /\ UNCHANGED <<s, msgs>>
Next == \E i \in Server : Timeout(i) \/ Receive(i) \/ Become(i) \/ Write(i)
OneLeader ==
    \A i, j \in Server :
        /\ s[i].role = "l" /\ s[j].role = "l" /\ s[i].term = s[j].term
        => i = j
Long == \A i \in Server : Len(log[i]) < 3
====
