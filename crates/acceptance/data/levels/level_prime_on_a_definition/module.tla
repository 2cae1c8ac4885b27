---- MODULE M ----
EXTENDS Integers
VARIABLES x, y
Foo == x'
Init == x = 0 /\ y = 0
Next == Foo' = 0
Inv == TRUE
====
