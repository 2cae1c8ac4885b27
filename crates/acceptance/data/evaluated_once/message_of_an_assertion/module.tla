---- MODULE M ----
EXTENDS Integers, TLC
VARIABLE x
Init == x \in 0..4
Next == x' = x
Inv == LET m == 1 \div 0
           ok == x # 3
       IN  Assert(ok, m) /\ ok
====
