---- MODULE Leaps ----
EXTENDS Naturals
VARIABLES x
Init == x = 1
Add == x' = x + 1
Leap == x' = x + 3
Next == Add \/ Leap
Small == x < 4
====
