---- MODULE Log ----
EXTENDS Naturals, Sequences
VARIABLES log, at
Init == log = <<"a", "b">> /\ at = 1
Read == at' = at + 1 /\ UNCHANGED log
Next == Read
Matches == \A i \in 1..3 : i < at => log[i] # "c"
====
