---- MODULE Channel ----
\* A sender and a receiver. A message is lost only where there are more than two, and there never are.
EXTENDS Naturals
VARIABLES sent, received
Init == sent = 0 /\ received = 0
Send == /\ sent < 3
        /\ sent - received < 2
        /\ sent' = sent + 1
        /\ UNCHANGED received
Receive == /\ received < sent
           /\ received' = received + 1
           /\ UNCHANGED sent
Lose == /\ sent - received > 2
        /\ sent' = sent - 1
        /\ UNCHANGED received
Stay == UNCHANGED <<sent, received>>
Next == Send \/ Receive \/ Lose \/ Stay
====
