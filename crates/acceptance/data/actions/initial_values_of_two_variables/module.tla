---- MODULE M ----
EXTENDS Integers, Sequences, FiniteSets, TLC
VARIABLES x, y
Init == x \in {1, 2} /\ y \in {3, x}
Next == UNCHANGED x /\ UNCHANGED y
Inv == y # 2
====
