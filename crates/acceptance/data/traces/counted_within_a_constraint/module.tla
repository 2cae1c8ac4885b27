---- MODULE Bounded ----
\* A counter that a constraint bounds: no step is taken from 3. Even steps are made in two ways.
EXTENDS Naturals
VARIABLES count
Init == count = 0
Add(n) == count' = count + n
Double == count > 0 /\ count' = count * 2
Next == (\E n \in 1..2 : Add(n)) \/ Double
Small == count < 3
====
