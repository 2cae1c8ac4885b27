---- MODULE M ----
EXTENDS Integers
VARIABLE x
Same(a, b) == b + b + a = b + a + b
Init == x = 0
Next == x < 3 /\ x' = x + 1
Inv == IF x < 2 THEN Same(x, x) ELSE Same(<<1>>[x], 1 \div (x - 2))
====
