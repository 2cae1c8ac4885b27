---- MODULE M ----
EXTENDS Integers, Sequences
VARIABLES x, log
Init == x = 0 /\ log = << >>
Put(m) == m.to # m.from /\ x' = (x + m.to) % 4 /\ log' = Append(log, [m EXCEPT !.to = @ + 1])
Next == \E t \in 0..2 : Len(log) < 2 /\ Put([from |-> x, to |-> (x + t) % 3, items |-> {t, x}])
Inv == Len(log) = 2 => log[2].from # 3 \/ x # 0
====
