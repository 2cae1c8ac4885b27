---- MODULE Grid ----
EXTENDS Naturals
VARIABLE cell
Init == cell = [i \in 1..3 |-> 0]
Set(i) == cell'[i] = cell[i] + 1
Next == \E i \in 1..3 : Set(i)
====
