---- MODULE M ----
EXTENDS Integers, Sequences, FiniteSets, TLC
VARIABLE x
ASSUME {IF v = 1 THEN 1 \div w ELSE 2 ^ (-1) : v \in {1, 2}, w \in {0, 1}} = {}
Init == x = 0
Next == x' = (x + 1) % 3
Inv == x < 3
====
