---- MODULE M ----
EXTENDS Integers
VARIABLE x
Size == x * x
Apart(a, b) == IF a > b THEN a - b ELSE b - a
Sum(a, b) == a + b + Apart(a, b) + Apart(b, a)
Init == x = 0
Next == x' = x + 1
Inv == LET s == Sum(Size, x + 2) IN s + s = 2 * Sum(x + 2, Size) /\ s # 22
====
