---- MODULE M ----
EXTENDS Integers, FiniteSets
VARIABLE x
Quorum == {q \in SUBSET (1..5) : Cardinality(q) * 2 > 5}
ASSUME Cardinality(Quorum) = 16
ASSUME \A q, r \in Quorum : q \cap r # {}
Init == x = {}
Next == \E i \in 1..5 : x' = x \cup {i}
Inv == x \in Quorum => \A q \in Quorum : q \cap x # q \/ q = x \/ 5 \notin x
====
