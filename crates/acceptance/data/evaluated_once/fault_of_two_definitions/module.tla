---- MODULE M ----
EXTENDS Integers
VARIABLE x
Init == x \in 0..2
Next == x' = x
Inv == LET a == 1 \div (1 - x)
           b == x + "b"
       IN  x = 0 \/ b + a = a + b
====
