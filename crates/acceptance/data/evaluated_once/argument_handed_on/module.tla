---- MODULE M ----
EXTENDS Integers, FiniteSets
VARIABLE x
C(s, m, n) == \A a \in s : a # m * n /\ Cardinality(s) = m
B(s, n) == C(s, n, n + 1)
A(s) == B(s, Cardinality(s))
Init == x \in 0..7
Next == x' = x
Inv == A({x, x + 2, 2 * x})
====
