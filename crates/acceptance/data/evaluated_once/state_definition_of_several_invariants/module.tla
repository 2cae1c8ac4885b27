---- MODULE M ----
EXTENDS Integers, FiniteSets
VARIABLE x
Big == {i \in 1..9 : i > x}
Count == Cardinality(Big)
Init == x = 0
Next == Count > 0 /\ x' = x + 1
Con == Count > 2
Some == Count > 1 /\ Big # {}
All == \A i \in Big : i > x
Sum == Count + x = 9
Inv == Count # 4
====
