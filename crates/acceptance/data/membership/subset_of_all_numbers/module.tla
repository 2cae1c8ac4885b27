---- MODULE M ----
EXTENDS Integers, Sequences, FiniteSets, TLC
VARIABLE x
ASSUME {1, 2} \subseteq Nat /\ ({1, "a"} \subseteq Nat) = FALSE
Init == x = 0
Next == x' = (x + 1) % 3
Inv == x < 3
====
