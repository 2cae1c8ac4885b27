---- MODULE M ----
EXTENDS Integers, FiniteSets
VARIABLES x, y
Most(S) == CHOOSE v \in S : \A w \in S : v >= w
F == [i \in 1..3 |-> LET d == {i, x} IN Cardinality(d) * 10 + Most(d)]
G == {LET d == {i, x} IN Cardinality(d) + Most(d) : i \in 1..3}
H == {i \in 1..3 : LET d == {i, x} IN Cardinality(d) = 1 \/ 3 \in d}
C == CHOOSE i \in 1..4 : LET d == {i, x} IN Cardinality(d) = 1 \/ 4 \in d
Init == x = 0 /\ y = 0
Next == x < 3 /\ x' = x + 1 /\ y' = <<F, G, H, C>>
====
