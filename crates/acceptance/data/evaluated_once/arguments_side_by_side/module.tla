---- MODULE M ----
EXTENDS Integers
VARIABLE x
Has(s, k) == k \in s /\ \A a \in s : a # k + 1
Init == x \in {0, 1, 5, 6}
Next == x' = x
Inv == \A i \in 1..3 : Has({i, i + 2, x}, i) /\ Has({i + 1, i + 3, x}, i + 1)
====
