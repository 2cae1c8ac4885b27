---- MODULE Counter ----
EXTENDS Naturals
VARIABLES count, done
Init == count = 0 /\ done = FALSE
Count == count < 3 /\ count = count + 1 /\ UNCHANGED done
Finish == count = 3 /\ done' = TRUE /\ UNCHANGED count
Next == Count \/ Finish
====
