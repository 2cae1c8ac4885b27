---- MODULE M ----
EXTENDS Integers, Sequences, FiniteSets, TLC
VARIABLE x
ASSUME -1 \in Int /\ "a" \notin Int /\ TRUE \in BOOLEAN /\ "a" \in STRING /\ 1 \notin BOOLEAN
Init == x = 0
Next == x' = (x + 1) % 3
Inv == x < 3
====
