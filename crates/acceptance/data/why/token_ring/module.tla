---- MODULE TokenRing ----
EXTENDS Naturals, FiniteSets
CONSTANT N
VARIABLES token, inFlight
Node == 0 .. N - 1
Init == token = [n \in Node |-> n = 0] /\ inFlight = {}
Send(n) ==
    /\ token[n]
    /\ token' = [token EXCEPT ![n] = FALSE]
    /\ inFlight' = inFlight \cup {(n + 1) % N}
Lose(n) ==
    /\ n \in inFlight
    /\ inFlight' = inFlight \ {n}
    /\ UNCHANGED token
Next == \E n \in Node : Send(n) \/ Lose(n)
Holders == {n \in Node : token[n]}
OneToken ==
    \/ Cardinality(Holders) = 1
    \/ Cardinality(inFlight) = 1 /\ Holders = {}
====
