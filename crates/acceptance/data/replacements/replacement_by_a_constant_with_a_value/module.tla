---- MODULE M ----
EXTENDS Integers, Sequences, FiniteSets
CONSTANTS A, B
VARIABLE x
ASSUME A = {B, 2} /\ B = A
Both == {B, 2}
Init == x = 0
Next == x' = (x + 1) % 3
Inv == x < 3
====
