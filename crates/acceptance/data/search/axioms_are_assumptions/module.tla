---- MODULE M ----
EXTENDS Integers
VARIABLE x
AXIOM 1 = 1
ASSUMPTION 1 = 2
Init == x = 0
Next == x' = (x + 1) % 3
Inv == x < 3
====
