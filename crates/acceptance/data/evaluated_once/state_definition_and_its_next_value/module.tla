---- MODULE M ----
EXTENDS Integers, FiniteSets
VARIABLES x, y
Big == {i \in 1..3 : i > x}
Init == x = 0 /\ y = << >>
Next == /\ Cardinality(Big) > 1
        /\ x' = x + 1
        /\ Cardinality(Big') = Cardinality(Big) - 1
        /\ y' = <<Big, Big', Big>>
Inv == Cardinality(Big) + x = 3
====
