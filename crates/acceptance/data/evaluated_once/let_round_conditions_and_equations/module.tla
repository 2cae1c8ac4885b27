---- MODULE M ----
EXTENDS Integers, FiniteSets
VARIABLES x, y, z
Init == x = 0 /\ y = {} /\ z = 0
Next == \E i \in 1..3 :
          LET s == {i * k + x : k \in 1..2}
              n == Cardinality(s)
          IN  /\ x < 4
              /\ i + x \in s
              /\ n + x # 4
              /\ x' = x + i
              /\ y' = s \cup {n}
              /\ z' = n
Inv == x = 7 => y # {2, 7, 10}
====
