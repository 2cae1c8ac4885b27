---- MODULE M ----
EXTENDS Integers
VARIABLE x
Left == 6 \div (2 - x)
Init == x = 0
Next == x' = x + 1
First == x < 3 \/ Left = 1
Second == x < 2 \/ x > 2 \/ Left = 6
====
