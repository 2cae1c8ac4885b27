---- MODULE Allocator ----
EXTENDS Naturals
VARIABLES used, last
Slot == 1..2
Init == used = {} /\ last = 0
FirstFree == CHOOSE s \in Slot : s \notin used
Take == last' = FirstFree /\ used' = used \cup {last'}
Next == Take
====
