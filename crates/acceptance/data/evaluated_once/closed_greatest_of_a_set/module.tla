---- MODULE M ----
EXTENDS Integers
VARIABLE x
Max(S) == CHOOSE a \in S : \A b \in S : a >= b
Top == Max({(i * 7) % 11 : i \in 1..10})
ASSUME Top = 10 /\ \A i \in 1..3 : Max({i, 2}) < Top
Init == x = 0
Next == x < Top /\ x' = x + Max({2, 3, 1})
Inv == \A i \in 1..3 : x + i + 1 # Top + Max({i, 2})
====
