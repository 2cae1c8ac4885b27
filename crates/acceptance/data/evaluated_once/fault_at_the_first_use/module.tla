---- MODULE M ----
EXTENDS Integers
VARIABLE x
Init == x \in 0..4
Next == x' = x
Inv == LET s == {10 \div (3 - x)}
           t == s \cup s
       IN  x = 7 \/ (x + 1 > 0 /\ t = s)
====
