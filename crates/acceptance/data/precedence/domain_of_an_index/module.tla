---- MODULE M ----
EXTENDS Integers, Sequences, FiniteSets, TLC
VARIABLE x
ASSUME DOMAIN <<<<5>>>>[1] = {1}
Init == x = 0
Next == x' = (x + 1) % 3
Inv == x < 3
====
