---- MODULE Quorums ----
EXTENDS Naturals, FiniteSets
CONSTANT N
VARIABLE chosen
Acceptor == 1..N
Quorum == {q \in SUBSET Acceptor : Cardinality(q) * 2 > N}
Init == chosen = {}
Next == \E q \in Quorum : chosen' = q
====
