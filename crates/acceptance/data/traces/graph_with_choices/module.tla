---- MODULE Mail ----
\* A message is sent to one of two, who reads it.
CONSTANT Person
VARIABLES msgs, read
Init == msgs = {} /\ read = {}
Send(p) == msgs = {} /\ read = {} /\ msgs' = {[to |-> p, text |-> "hello"]} /\ UNCHANGED read
Read == \E m \in msgs : msgs' = {} /\ read' = {m.to}
Next == (\E p \in Person : Send(p)) \/ Read
====
