---- MODULE Channel ----
EXTENDS Naturals
VARIABLES sent, received
Init == sent = 0 /\ received = 0
Send == sent < 3 /\ sent' = sent + 1 /\ UNCHANGED received
Receive == received < sent /\ received' = received + 1 /\ UNCHANGED sent
Lose == sent > 3 /\ sent' = sent - 1 /\ UNCHANGED received
Next == Send \/ Receive \/ Lose
Inv == received <= sent
====
