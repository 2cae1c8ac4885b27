---- MODULE M ----
EXTENDS Integers
VARIABLES x, y
T == [i, j \in 1..4 |-> (i * j) % 5]
R == [i \in 1..4 |-> {j \in 1..4 : T[i, j] = 1}]
Init == x = 1 /\ y = 1
Next == x' = T[x, y] /\ y' = (y % 4) + 1
Inv == \A a \in R[x] : T[x, a] = 1 /\ T[a, x] = 1 /\ x + y # 6
====
