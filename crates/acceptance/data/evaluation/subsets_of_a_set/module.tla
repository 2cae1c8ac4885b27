---- MODULE M ----
EXTENDS Integers, Sequences, FiniteSets, TLC
VARIABLE x
ASSUME SUBSET {1, 2} = {{}, {1}, {2}, {1, 2}} /\ SUBSET {} = {{}}
Init == x = 0
Next == x' = (x + 1) % 3
Inv == x < 3
====
