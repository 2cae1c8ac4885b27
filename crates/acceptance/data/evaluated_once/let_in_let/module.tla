---- MODULE M ----
EXTENDS Integers, FiniteSets
VARIABLE x
Init == x \in 0..3
Next == x' = x
Inv == LET s == LET t == {x, x + 1} IN {a * b : a \in t, b \in t}
           n == LET t == Cardinality(s) IN t + t
       IN  \A k \in s : LET u == {k + j : j \in s}
                        IN  Cardinality(u) + Cardinality(u) = n /\ 12 \notin u
====
