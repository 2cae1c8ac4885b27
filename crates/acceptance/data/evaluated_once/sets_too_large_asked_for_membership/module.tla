---- MODULE M ----
EXTENDS Integers, Sequences
VARIABLES f, g
Large == SUBSET (1..30)
Both(s) == f \in s /\ g \in s
Init == f = [i \in 1..30 |-> i] /\ g = [i \in 1..30 |-> 31 - i]
Next == f' = g /\ g' = f
Inv == /\ f \in [1..30 -> 1..30] /\ g \in [1..30 -> 1..30]
       /\ LET s == [1..30 -> 1..30] IN f \in s /\ g \in s
       /\ Both([1..30 -> 1..30]) /\ Both(Seq(1..30))
       /\ {f[1]} \in Large /\ {g[1]} \in Large /\ {0} \notin Large
       /\ LET n == Nat IN f[1] \in n /\ g[1] \in n
====
