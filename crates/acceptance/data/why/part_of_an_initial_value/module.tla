---- MODULE Clocks ----
EXTENDS Naturals
CONSTANT Node
VARIABLE clock
Init == \A n \in Node : clock[n] = 0
Next == \E n \in Node : clock' = [clock EXCEPT ![n] = 1]
====
