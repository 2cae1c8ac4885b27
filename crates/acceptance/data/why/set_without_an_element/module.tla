---- MODULE Pool ----
EXTENDS Naturals
VARIABLE free
Init == free = {1, 2, 3}
Take(x) == x \in free /\ free' = free - {x}
Next == \E x \in 1..3 : Take(x)
====
