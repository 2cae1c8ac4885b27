---- MODULE Queue ----
EXTENDS Naturals, Sequences
CONSTANT Max
VARIABLES queue, sent
Init == queue = << >> /\ sent = 0
Put ==
    /\ sent < 5
    /\ queue' = Append(queue, sent)
    /\ sent' = sent + 1
Get ==
    /\ queue # << >>
    /\ queue' = Tail(queue)
    /\ UNCHANGED sent
Next == Put \/ Get
Bounded ==
    /\ sent \in 0..5
    /\ Len(queue) <= Max
====
