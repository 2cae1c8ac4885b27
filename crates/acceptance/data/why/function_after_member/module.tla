---- MODULE Semaphore ----
EXTENDS Naturals
VARIABLES permits, waits
User == {"u", "v"}
Init == permits = 1 /\ waits \in [u \in User |-> FALSE]
Next == UNCHANGED <<permits, waits>>
====
