---- MODULE M ----
EXTENDS Integers
VARIABLE x
Left == 6 \div (2 - x)
Init == x = 0
Next == Left > 0 /\ x' = x + 1
Con == Left # 3 \/ Left + Left = 6
Inv == x = 2 \/ Left > 2
====
