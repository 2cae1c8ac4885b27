---- MODULE M ----
EXTENDS Integers
VARIABLE x
(* one (* two (* three *) *) (* four *) *)
Init == x = 0
Next == x' = (x + 1) % 3
Inv == x < 3
====
