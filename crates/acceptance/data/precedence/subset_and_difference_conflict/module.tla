---- MODULE M ----
EXTENDS Integers, Sequences, TLC
VARIABLE x
A == LET a == 1
         b == 2
         c == 3
     IN  SUBSET a \ b
Init == x = 0
Next == x' = (x + 1) % 3
Inv == x < 3
====
