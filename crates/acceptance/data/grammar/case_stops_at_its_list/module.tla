---- MODULE M ----
EXTENDS Integers, Sequences, FiniteSets, TLC
VARIABLE x
ASSUME (CASE TRUE -> /\ TRUE
        [] TRUE -> FALSE)
Init == x = 0
Next == x' = (x + 1) % 3
Inv == x < 3
====
