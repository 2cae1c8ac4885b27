---- MODULE M ----
EXTENDS Integers, FiniteSets
VARIABLE x
Init == x \in 0..4
Next == x' = x
Inv == LET d == Cardinality({x, 1, 2})
           e == 6 \div (d - 2)
       IN  CASE d = 2 -> d + d = 4
             [] x = 3 -> d + e # 9
             [] OTHER -> e = 6 /\ e + d = 9
====
