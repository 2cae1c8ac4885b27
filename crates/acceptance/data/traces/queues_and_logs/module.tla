---- MODULE Broker ----
\* A broker takes requests off a queue and appends them to a log, of which a crash loses the end.
EXTENDS Naturals, Sequences
VARIABLES step, queue, log
Init == /\ step = 0
        /\ queue = << >>
        /\ log = <<"a", "b">>
Send(m) == /\ step' = step + 1
           /\ queue' = Append(queue, m)
           /\ UNCHANGED log
Store == /\ step = 3
         /\ step' = 4
         /\ log' = Append(log, Head(queue))
         /\ queue' = Tail(queue)
Forward == /\ step = 4
           /\ step' = 5
           /\ queue' = Append(Tail(queue), "w")
           /\ UNCHANGED log
Urgent == /\ step = 5
          /\ step' = 6
          /\ queue' = <<"u">> \o queue
          /\ UNCHANGED log
Crash == /\ step = 6
         /\ step' = 7
         /\ queue' = SubSeq(queue, 1, 1) \o SubSeq(queue, 3, 3)
         /\ log' = <<"a">> \o <<"x", "y">>
Amend == /\ step = 7
         /\ step' = 8
         /\ log' = [log EXCEPT ![2] = "z"]
         /\ queue' = << >>
Next == \/ step = 0 /\ Send("m")
        \/ step = 1 /\ Send("n")
        \/ step = 2 /\ Send("o")
        \/ Store
        \/ Forward
        \/ Urgent
        \/ Crash
        \/ Amend
Short == step < 8
====
