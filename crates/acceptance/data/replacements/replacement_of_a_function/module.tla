---- MODULE M ----
EXTENDS Integers, Sequences, FiniteSets
VARIABLE x
f[i \in {1, 2}] == i
g[i \in {1, 2}] == 3 - i
ASSUME f[1] = 2 /\ g[1] = 2
Init == x = 0
Next == x' = (x + 1) % 3
Inv == x < 3
====
