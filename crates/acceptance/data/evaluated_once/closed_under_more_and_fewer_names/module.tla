---- MODULE M ----
EXTENDS Integers, FiniteSets
VARIABLE x
Even == {k \in 0..8 : k % 2 = 0}
ASSUME \A i \in 1..2 : \A j \in 1..2 : Cardinality({k \in Even : k > i * j}) = <<4, 3, 0, 2>>[i * j]
Init == x = 0
Next == x' = x + 2
Inv == /\ \A i \in Even : \E j \in Even : i + j = 8 /\ \A k \in Even : k > j => i + k > 8
       /\ \A i \in 0..1 : x + 4 * i \in Even
       /\ x \in Even
====
