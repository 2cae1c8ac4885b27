---- MODULE M ----
EXTENDS Integers
VARIABLE x
Sum0 == 1 + 1
Sum1 == Sum0 + Sum0
Sum2 == Sum1 + Sum1
Sum3 == Sum2 + Sum2
Sum4 == Sum3 + Sum3
Sum5 == Sum4 + Sum4
Sum6 == Sum5 + Sum5
Sum7 == Sum6 + Sum6
Sum8 == Sum7 + Sum7
Sum9 == Sum8 + Sum8
Sum10 == Sum9 + Sum9
Sum11 == Sum10 + Sum10
Sum12 == Sum11 + Sum11
Sum13 == Sum12 + Sum12
Sum14 == Sum13 + Sum13
Sum15 == Sum14 + Sum14
Sum16 == Sum15 + Sum15
Sum17 == Sum16 + Sum16
Sum18 == Sum17 + Sum17
Init == x = Sum18
Start == Init
Spec == x < 5 /\ Start /\ [][x' = x]_x
====
