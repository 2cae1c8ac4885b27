---- MODULE M ----
EXTENDS Integers, Sequences, FiniteSets, TLC
VARIABLE x
ASSUME LET a == LET b == 1 IN b + 1
       IN  LET b == a IN b = 2
Init == x = 0
Next == x' = (x + 1) % 3
Inv == x < 3
====
