---- MODULE M ----
EXTENDS Integers
VARIABLE x
Node == 1..5
Orders == {o \in [Node -> Node] : \A i, j \in Node : i # j => o[i] # o[j]}
Init == x \in 1..4000
Next == x' = x
Inv == \E o \in Orders : o[1] = 1 + (x % 5)
====
