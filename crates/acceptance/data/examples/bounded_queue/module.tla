------------------------------ MODULE Queue ------------------------------
(* A first-in, first-out queue of bounded length between a sender and a
   receiver.  What the receiver got is always the beginning of what was sent. *)
EXTENDS Naturals, Sequences
CONSTANTS Data, Capacity, Last

ASSUME Capacity > 0

VARIABLES sent, queue, got

vars == <<sent, queue, got>>

Init == sent = << >> /\ queue = << >> /\ got = << >>

Send(d) ==
  /\ Len(sent) < Last
  /\ Len(queue) < Capacity
  /\ sent' = Append(sent, d)
  /\ queue' = Append(queue, d)
  /\ UNCHANGED got

Receive ==
  /\ queue # << >>
  /\ got' = Append(got, Head(queue))
  /\ queue' = Tail(queue)
  /\ UNCHANGED sent

Done == Len(got) = Last /\ UNCHANGED vars

Next == (\E d \in Data : Send(d)) \/ Receive \/ Done

TypeOK ==
  /\ queue \in Seq(Data)
  /\ Len(queue) <= Capacity

InOrder == sent = got \o queue
==========================================================================
