---- MODULE Votes ----
EXTENDS Naturals, TLC
CONSTANT Node
VARIABLES votes, pairs
Init == votes = [n \in Node |-> 1] /\ pairs = {}
Count == \E n \in Node : pairs' = votes \X {n} /\ UNCHANGED votes
Next == Count
====
