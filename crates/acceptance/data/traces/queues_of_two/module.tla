---- MODULE M ----
EXTENDS Naturals, Sequences
CONSTANT P
VARIABLES q, n
Init == q = [p \in P |-> << >>] /\ n = 0
Vals == << << <<1>>, << >> >>, << <<1, 2>>, <<3>> >>, << <<2>>, <<3, 4>> >>, << << >>, <<4, 5, 6>> >>, << <<7, 7, 7>>, <<6>> >>, << <<7, 8, 7>>, <<6, 6>> >>, << <<7, 7>>, <<9>> >> >>
Next == n < 7 /\ n' = n + 1 /\ \E a, b \in P : a # b /\ q' = [q EXCEPT ![a] = Vals[n'][1], ![b] = Vals[n'][2]]
Inv == n < 7
====
