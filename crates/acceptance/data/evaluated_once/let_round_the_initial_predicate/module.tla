---- MODULE M ----
EXTENDS Integers, FiniteSets
VARIABLES x, y, z
Init == LET n == Cardinality({i \in 1..9 : i % 2 = 0})
        IN  x = n /\ y \in {n - 1, n} /\ LET d == x - y IN z = <<d, d + d>>
Next == UNCHANGED <<x, y, z>>
Inv == z[1] + y = 4 /\ y # 4
====
