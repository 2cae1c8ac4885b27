---- MODULE M ----
EXTENDS Integers, FiniteSets
VARIABLE x
Init == x \in 0..4
Next == x' = x
Size(n) == CASE n = 0 -> {} [] n % 2 = 0 -> 1..n [] n = 1 -> {7}
Inv == LET s == Size(x) IN Cardinality(s) <= x /\ (x = 0 \/ s # {})
====
