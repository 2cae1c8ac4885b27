---- MODULE M ----
EXTENDS Integers, Sequences, FiniteSets, TLC
VARIABLE x
ASSUME (CASE FALSE -> CASE TRUE -> 1 [] TRUE -> 2 [] OTHER -> 3) = 3
Init == x = 0
Next == x' = (x + 1) % 3
Inv == x < 3
====
