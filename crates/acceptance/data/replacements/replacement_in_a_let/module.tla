---- MODULE M ----
EXTENDS Integers, Sequences, FiniteSets
CONSTANT F(_)
VARIABLE x
ASSUME (LET g(v) == F(v) IN g(3)) = 4
Up(v) == v + 1
Init == x = 0
Next == x' = (x + 1) % 3
Inv == x < 3
====
