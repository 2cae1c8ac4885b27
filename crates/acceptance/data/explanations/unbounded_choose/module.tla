---- MODULE M ----
EXTENDS Integers
VARIABLE x
NoOne == CHOOSE v : v \notin 0..9
Init == x = NoOne
Next == x' = x
====
