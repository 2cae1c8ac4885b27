---- MODULE M ----
EXTENDS Integers
VARIABLE x
CONSTANTS N, T, S, M
ASSUME {2} \in N /\ T /\ S # M
Init == x = 0
Next == x' = (x + 1) % 3
Inv == x < 3
====
