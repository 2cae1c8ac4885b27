---- MODULE M ----
EXTENDS Integers, Sequences, FiniteSets, TLC
VARIABLE x
ASSUME (CASE 1 = 2 -> 1 [] 1 = 1 -> 2 [] TRUE -> 1 \div 0 [] OTHER -> 3) = 2
Init == x = 0
Next == x' = (x + 1) % 3
Inv == x < 3
====
