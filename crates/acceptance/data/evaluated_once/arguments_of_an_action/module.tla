---- MODULE M ----
EXTENDS Integers, FiniteSets
VARIABLES x, y, z
Move(n, s) == x' = x + n /\ y' \in s /\ z' = Cardinality(s) + n
Init == x = 0 /\ y = 0 /\ z = 0
Next == x < 4 /\ \E k \in 1..2 : Move(k, {i \in 0..3 : i < k})
Inv == ~ (x = 3 /\ y = 1 /\ z = 4)
====
