---- MODULE M ----
EXTENDS Integers
VARIABLES x, y
Twice(a) == a + a
Init == x = 0 /\ y = <<1, 2, 3>>
Next == /\ x < 2
        /\ x' = x + 1
        /\ y' = [y EXCEPT ![1] = LET d == @ + x IN d + d,
                          ![2] = LET d == @ + x IN d + d,
                          ![3] = Twice(@ + 1),
                          ![1] = LET d == @ + x IN d + d]
====
