---- MODULE M ----
EXTENDS Integers, FiniteSets
VARIABLES x, y
Pairs == {<<a, b>> \in (0..3) \X (0..3) : a + b = x}
Best == CHOOSE p \in Pairs : \A q \in Pairs : p[1] >= q[1]
Init == x \in 0..6 /\ y \in 0..3
Next == x' = x /\ y' = Best[2]
Low == Best[1] + Best[2] = x
Inv == y = 3 => Cardinality(Pairs) # 2 \/ Best # <<3, 2>>
====
