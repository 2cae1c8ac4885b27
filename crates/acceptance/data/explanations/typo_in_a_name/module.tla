---- MODULE Lock ----
EXTENDS Integers
VARIABLES waiting, holder
Init == waiting = 0 /\ holder = 0
Ask == waiting' = 1 /\ UNCHANGED holder
Take == wating = 1 /\ holder' = 1 /\ waiting' = 0
Next == Ask \/ Take
====
