------------------------------- MODULE Queue --------------------------------
(* A first-in, first-out queue of bounded length between a sender and a
   receiver.  What was received is always the beginning of what was sent, and
   the queue holds the rest. *)
EXTENDS Naturals, Sequences

CONSTANTS Data,     \* what may be sent
          Capacity, \* how many elements the queue holds at most
          Last      \* how many elements are sent in all

ASSUME Capacity \in Nat /\ Capacity > 0 /\ Last \in Nat

VARIABLES sent, queue, got

vars == <<sent, queue, got>>

TypeOK ==
  /\ queue \in Seq(Data)
  /\ Len(queue) <= Capacity

Init == sent = << >> /\ queue = << >> /\ got = << >>

Send(d) ==
  /\ Len(sent) < Last
  /\ Len(queue) < Capacity
  /\ sent' = Append(sent, d)
  /\ queue' = <<d>> \o queue
  /\ UNCHANGED got

Receive ==
  /\ queue # << >>
  /\ got' = Append(got, Head(queue))
  /\ queue' = Tail(queue)
  /\ UNCHANGED sent

Done == Len(got) = Last /\ UNCHANGED vars

Next == (\E d \in Data : Send(d)) \/ Receive \/ Done

Spec == Init /\ [][Next]_vars

InOrder == sent = got \o queue
=============================================================================
