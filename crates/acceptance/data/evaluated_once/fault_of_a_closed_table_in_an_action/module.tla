---- MODULE M ----
EXTENDS Integers
VARIABLE x
Table == [i \in 1..3 |-> 6 \div (3 - i)]
Init == x = 0
Next == x' = IF x < 2 THEN x + 1 ELSE Table[1]
Inv == x < 3
====
