---- MODULE M ----
EXTENDS Integers, Sequences, FiniteSets, TLC
VARIABLE x
ASSUME Append(<<1>>, 2) = <<1, 2>> /\ Head(<<1, 2>>) = 1 /\ Tail(<<1, 2>>) = <<2>> /\ <<1>> \o <<2, 3>> = <<1, 2, 3>>
Init == x = 0
Next == x' = (x + 1) % 3
Inv == x < 3
====
