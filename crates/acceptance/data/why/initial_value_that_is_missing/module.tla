---- MODULE Bank ----
EXTENDS Naturals
VARIABLES balance, history
Init == balance \in 1..2 /\ (balance = 1 => history = << >>)
Next == UNCHANGED <<balance, history>>
====
