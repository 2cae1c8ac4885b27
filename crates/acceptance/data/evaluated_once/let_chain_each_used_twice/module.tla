---- MODULE M ----
EXTENDS Integers
VARIABLE x
Init == x = 0
Next == x' = (x + 1) % 5
Inv == LET a == x + 1
           b == a + a
           c == b + b
           d == c + c
           e == d + d
           f == e + e
       IN  f + f = 64 * (x + 1) /\ f # 96
====
