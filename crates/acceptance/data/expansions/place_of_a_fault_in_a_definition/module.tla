---- MODULE M ----
EXTENDS Integers, Sequences, FiniteSets, TLC
VARIABLE x
Bad == 1 \div 0
ASSUME Bad = 1
Init == x = 0
Next == x' = (x + 1) % 3
Inv == x < 3
====
