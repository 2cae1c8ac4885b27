---- MODULE Divides ----
\* The second step divides by zero.
EXTENDS Integers
VARIABLES x
Init == x = 1
Next == x' = (2 \div x) - 2
====
