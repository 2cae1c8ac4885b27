---- MODULE M ----
EXTENDS Naturals
VARIABLES a, m
Text == "this is a very long text that goes on and on, with many words in it, to see how it is cut: one two three four five six seven eight nine ten eleven twelve thirteen fourteen fifteen sixteen seventeen"
Init == a = 0 /\ m = [k \in {} |-> 0]
Next == a' = a + 1 /\ m' = [text |-> Text, other |-> [i \in 1..60 |-> i + a]]
Inv == a < 3
====
