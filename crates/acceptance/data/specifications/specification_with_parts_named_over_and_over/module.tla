---- MODULE M ----
EXTENDS Integers
VARIABLE x
Part0 == x = 0 /\ x < 5
Part1 == Part0 /\ Part0
Part2 == Part1 /\ Part1
Part3 == Part2 /\ Part2
Part4 == Part3 /\ Part3
Part5 == Part4 /\ Part4
Part6 == Part5 /\ Part5
Part7 == Part6 /\ Part6
Part8 == Part7 /\ Part7
Part9 == Part8 /\ Part8
Part10 == Part9 /\ Part9
Part11 == Part10 /\ Part10
Part12 == Part11 /\ Part11
Part13 == Part12 /\ Part12
Part14 == Part13 /\ Part13
Part15 == Part14 /\ Part14
Part16 == Part15 /\ Part15
Part17 == Part16 /\ Part16
Part18 == Part17 /\ Part17
Spec == Part18 /\ [][x' = x]_x
====
