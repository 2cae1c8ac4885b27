---- MODULE M ----
EXTENDS Integers
VARIABLES x, y
Foo == (x + 1)'
Init == x = 0 /\ y = 0
Next == x' = x /\ y' = y
Inv == 1 = Foo
====
