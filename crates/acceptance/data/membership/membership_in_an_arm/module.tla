---- MODULE M ----
EXTENDS Integers, Sequences, FiniteSets, TLC
VARIABLE x
ASSUME 1 \in CASE FALSE -> {1 \div 0} [] TRUE -> Nat
Init == x = 0
Next == x' = (x + 1) % 3
Inv == x < 3
====
