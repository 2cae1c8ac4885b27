---- MODULE TwoPhase ----
\* Servers read a request from the network, which loses it then, and send their vote.
CONSTANT Server
VARIABLES state, msgs
Init == /\ state = [s \in Server |-> "working"]
        /\ msgs = {[type |-> "prepare", to |-> s] : s \in Server}
Prepare(s) ==
    /\ [type |-> "prepare", to |-> s] \in msgs
    /\ state' = [state EXCEPT ![s] = "prepared"]
    /\ msgs' = (msgs \ {[type |-> "prepare", to |-> s]})
               \cup {[type |-> "vote", from |-> s]}
Next == \E s \in Server : Prepare(s)
SomeWork == \E s \in Server : state[s] = "working"
====
