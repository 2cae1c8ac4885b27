---- MODULE Doubles ----
\* One is added or the number is doubled, which is the same at first.
EXTENDS Naturals
VARIABLES number
Init == number = 1
Add(n) == number' = number + n
Double == number' = number * 2
Next == (\E n \in 1..3 : Add(n)) \/ Double
NotTwo == number # 2
====
