---- MODULE M ----
EXTENDS Integers, Sequences
VARIABLE queue
Init == queue = <<1, 2>>
First(q) == Head(q)
Take == First(queue) > 0 /\ queue' = Tail(queue)
Next == Take
====
