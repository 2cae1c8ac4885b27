---- MODULE M ----
EXTENDS Integers, FiniteSets
VARIABLE x
Init == x \in 0..6
Next == x' = x
Inv == /\ \A i \in 1..3 : Cardinality({i, x}) * Cardinality({i, x}) # 2
       /\ \A j \in 4..6 : {j, x} # {5} /\ Cardinality({j, x} \cup {5}) < 4
       /\ \E i \in 1..3 : \A j \in 4..6 : {i, x} # {j, x} /\ {j, x} # {i}
====
