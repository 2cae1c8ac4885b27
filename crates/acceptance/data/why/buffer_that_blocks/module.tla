---- MODULE Buffer ----
EXTENDS Naturals, Sequences
CONSTANTS Producer, Consumer, Size
VARIABLES buffer, waiting
Init == buffer = << >> /\ waiting = {}
Put(p) ==
    /\ p \notin waiting
    /\ IF Len(buffer) < Size
       THEN buffer' = Append(buffer, p) /\ UNCHANGED waiting
       ELSE waiting' = waiting \cup {p} /\ UNCHANGED buffer
Get(c) ==
    /\ c \notin waiting
    /\ IF Len(buffer) > 0
       THEN buffer' = Tail(buffer) /\ UNCHANGED waiting
       ELSE waiting' = waiting \cup {c} /\ UNCHANGED buffer
Next == (\E p \in Producer : Put(p)) \/ (\E c \in Consumer : Get(c))
====
