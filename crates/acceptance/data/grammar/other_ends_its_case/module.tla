---- MODULE M ----
EXTENDS Integers, Sequences, FiniteSets, TLC
VARIABLE x
ASSUME (CASE TRUE -> CASE FALSE -> 1 [] OTHER -> 2 [] TRUE -> 3) = 2
Init == x = 0
Next == x' = (x + 1) % 3
Inv == x < 3
====
