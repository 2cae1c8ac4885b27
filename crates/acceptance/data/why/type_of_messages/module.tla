---- MODULE Messages ----
EXTENDS Naturals
VARIABLES msgs, count
Message == [type : {"req", "ack"}, from : 1..2]
Init == msgs = {} /\ count = 0
Send(m) == count < 2 /\ msgs' = msgs \cup {m} /\ count' = count + 1
Reply == \E m \in msgs : m.type = "req" /\ Send([type |-> "akc", from |-> m.from])
Request == \E p \in 1..2 : Send([type |-> "req", from |-> p])
Next == Request \/ Reply
TypeOK == /\ count \in Nat
          /\ msgs \subseteq Message
====
