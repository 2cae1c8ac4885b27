---- MODULE M ----
EXTENDS Integers, FiniteSets
VARIABLES x, y, z
Init == x = 0 /\ y = 0 /\ z = <<0, {}>>
Next == LET n == Cardinality({i \in 1..9 : i % (x + 2) = 0})
            s == {n, n + 1}
        IN  /\ x < 3
            /\ x' = x + 1
            /\ y' = n + n
            /\ z' = [z EXCEPT ![1] = n, ![2] = s]
====
