---- MODULE M ----
EXTENDS Integers, Sequences, TLC
VARIABLE x
Init == x = <<1, "a", <<TRUE>>, {}>>
Next == x' = x /\ FALSE
====
