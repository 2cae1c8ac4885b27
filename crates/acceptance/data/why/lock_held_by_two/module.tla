---- MODULE Lock ----
EXTENDS Naturals
VARIABLES held, asked
Node == 1..4
Init == held = [n \in Node |-> FALSE] /\ asked = {}
Ask(n) == n \notin asked /\ asked' = asked \cup {n} /\ UNCHANGED held
Take(n) == n \in asked /\ n % 3 = 1 /\ held' = [held EXCEPT ![n] = TRUE] /\ asked' = asked \ {n}
Next == \E n \in Node : Ask(n) \/ Take(n)
Exclusive == \A i, j \in Node : (held[i] /\ held[j]) => i = j
====
