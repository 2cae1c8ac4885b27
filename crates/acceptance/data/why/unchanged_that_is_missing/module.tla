---- MODULE Channel ----
EXTENDS Naturals, Sequences
VARIABLES sent, wire, got
vars == <<sent, wire, got>>
Init == sent = 0 /\ wire = << >> /\ got = << >>
Send ==
    /\ sent < 3
    /\ sent' = sent + 1
    /\ wire' = Append(wire, sent)
    /\ UNCHANGED got
Lose ==
    /\ wire # << >>
    /\ wire' = Tail(wire)
    /\ UNCHANGED <<sent, got>>
Receive ==
    /\ wire # << >>
    /\ got' = Append(got, Head(wire))
    /\ wire' = Tail(wire)
Next == Send \/ Lose \/ Receive
====
